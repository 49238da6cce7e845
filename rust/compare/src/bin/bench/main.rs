//! bench [NODES..]                the library beside the baseline: compiling and running recipes of four outlines and growing
//!                                size, quietly and with recalls that strike all along
//! bench beside OLD.. -- NEW..    shared objects of two libraries beside each other, as many of each (`scripts/beside`)
//!
//! Samples are taken by turns. Beside the baseline, the median of the ratios is given, and times are medians; of two libraries,
//! the ratio of the means of the medians. A word that is not understood is told on standard error, and the exit status is 2.

mod measure;
mod set;
mod side;

use measure::{mean, median, Times, SAMPLES};
use set::{Set, OUTLINES};
use side::{Side, BASELINE, LIBRARY};
use std::process::ExitCode;

const SIZES: [usize; 4] = [8, 32, 128, 512];
/// With sixteen sides at a time.
const SAMPLES_BESIDE: usize = 25;

fn main() -> ExitCode {
    let words: Vec<String> = std::env::args().skip(1).collect();
    let asked = match words.split_first() {
        Some((first, rest)) if first == "beside" => beside(rest),
        _ => sizes(&words).map(|sizes| beside_the_baseline(&sizes)),
    };
    match asked {
        Ok(()) => ExitCode::SUCCESS,
        Err(sentence) => {
            eprintln!("bench: {sentence}\nusage: bench [NODES..] | beside OLD.. -- NEW..");
            ExitCode::from(2)
        }
    }
}

fn sizes(words: &[String]) -> Result<Vec<usize>, String> {
    let size = |word: &String| match word.parse() {
        Ok(nodes @ 8..=512) => Ok(nodes),
        _ => Err(format!("'{word}' is not a number of nodes from 8 to 512")),
    };
    match words {
        [] => Ok(SIZES.to_vec()),
        _ => words.iter().map(size).collect(),
    }
}

fn beside_the_baseline(sizes: &[usize]) {
    println!("The library beside the baseline: nanoseconds of the library, and its time by the baseline's.");
    println!("{:19}   {:16}  {:16}  run, recalled", "", "compile", "run, quiet");
    let columns = "   a node   ratio".to_string() + &"   a step   ratio".repeat(2);
    println!("{:12} {:>6}{columns}   recalls a run", "shape", "nodes");
    for outline in OUTLINES {
        let rows: Vec<[f64; 3]> =
            sizes.iter().map(|&nodes| row(outline.name, &Set::new(&outline, nodes))).collect();
        if let [first, .., last] = rows.as_slice() {
            print!("{:12} {:>6}", outline.name, "growth");
            for (first, last) in first.iter().zip(last) {
                print!(" {:8.2} {:7}", last / first, "");
            }
            println!();
        }
    }
}

/// The times of the library.
fn row(name: &str, set: &Set) -> [f64; 3] {
    print!("{name:12} {:6}", set.nodes);
    let row = measure::all(set, &[LIBRARY, BASELINE], SAMPLES).map(|times| {
        let each = median(times[0].iter().copied());
        let ratio = median(times[0].iter().zip(&times[1]).map(|(library, baseline)| library / baseline));
        print!(" {each:8.2} {ratio:7.2}");
        each
    });
    println!(" {:15.1}", set.recalled.by_run());
    row
}

fn beside(words: &[String]) -> Result<(), String> {
    let mut halves = words.split(|word| word == "--");
    let (Some(old), Some(new), None) = (halves.next(), halves.next(), halves.next()) else {
        return Err(
            "the shared objects of the old library and of the new one have '--' between them".to_string()
        );
    };
    if old.is_empty() || old.len() != new.len() {
        return Err("there are not as many shared objects of the one library as of the other".to_string());
    }
    let pairs = old.iter().zip(new).flat_map(|(old, new)| [old, new]);
    let sides: Vec<Side> = pairs.map(|path| Side::loaded(path)).collect::<Result<_, _>>()?;
    println!(
        "The new library's time by the old one's: compile, run quiet, run recalled; each at {} places.",
        old.len()
    );
    let mut all = [vec![], vec![], vec![]];
    for outline in OUTLINES {
        for nodes in SIZES {
            print!("{:12} {nodes:6}", outline.name);
            let times = measure::all(&Set::new(&outline, nodes), &sides, SAMPLES_BESIDE);
            for (times, all) in times.iter().zip(&mut all) {
                let ratio = new_by_old(times);
                all.push(ratio);
                print!(" {ratio:7.3}");
            }
            println!();
        }
    }
    let [compile, quiet, recalled] = all.map(|ratios| mean(ratios.into_iter()));
    println!("{:12} {:6} {compile:7.3} {quiet:7.3} {recalled:7.3}", "mean", "");
    Ok(())
}

/// Of the times of an old side, a new one, an old one, and so on.
fn new_by_old(times: &Times) -> f64 {
    let [old, new] = [0, 1]
        .map(|first| mean(times.iter().skip(first).step_by(2).map(|times| median(times.iter().copied()))));
    new / old
}
