//! Times of several sides on the same work.

use crate::set::Set;
use crate::side::Side;
use std::time::Instant;

pub const SAMPLES: usize = 41;
/// Nodes compiled, or steps taken, in a sample.
const WORK: usize = 200_000;

/// Nanoseconds of a node or a step: of each side, of each sample.
pub type Times = Vec<Vec<f64>>;

/// Compiling, running quietly, running recalled.
pub fn all(set: &Set, sides: &[Side], samples: usize) -> [Times; 3] {
    for side in sides {
        set.quiet.check(side);
        set.recalled.check(side);
    }
    [
        by_turns(sides, samples, set.nodes_compiled(), |side| set.compile(side)),
        by_turns(sides, samples, set.quiet.steps(), |side| set.quiet.run(side)),
        by_turns(sides, samples, set.recalled.steps(), |side| set.recalled.run(side)),
    ]
}

/// Each sample takes all sides, in their order and then from the last to the first, so that none is always the one before.
fn by_turns(sides: &[Side], samples: usize, units: usize, work: impl Fn(&Side)) -> Times {
    let times = (WORK / units).max(1);
    let mut found = vec![Vec::with_capacity(samples); sides.len()];
    for sample in 0..samples {
        for turn in 0..sides.len() {
            let side = if sample % 2 == 0 { turn } else { sides.len() - 1 - turn };
            let started = Instant::now();
            for _ in 0..times {
                work(&sides[side]);
            }
            found[side].push(started.elapsed().as_nanos() as f64 / (times * units) as f64);
        }
    }
    found
}

pub fn median(of: impl IntoIterator<Item = f64>) -> f64 {
    let mut of: Vec<f64> = of.into_iter().collect();
    of.sort_by(f64::total_cmp);
    of[of.len() / 2]
}

pub fn mean(of: impl ExactSizeIterator<Item = f64>) -> f64 {
    let count = of.len() as f64;
    of.sum::<f64>() / count
}
