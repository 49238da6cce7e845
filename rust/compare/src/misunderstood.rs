//! Words that this program and the benchmark beside it do not understand: told in a sentence, with exit status 2.

use crate::report::Report;
use std::env;
use std::io::Result;
use std::process::Command;

const COMPARE: [&[&str]; 7] = [
    &[],
    &["quick"],
    &["quick", "no-program", "no-program"],
    &["round", "one", "1"],
    &["long", "0"],
    &["long", "1", "2", "3"],
    &["touch", "left", "read"],
];
const BENCH: [&[&str]; 4] =
    [&["7"], &["8", "many"], &["beside", "one"], &["beside", "no-object", "--", "no-object"]];

pub fn all(report: &mut Report) {
    for (program, lines) in [("compare", &COMPARE[..]), ("bench", &BENCH)] {
        for words in lines {
            let refused = refused(program, words).unwrap_or(false);
            report.check(&format!("not understood: {program} {}", words.join(" ")), refused);
        }
    }
}

fn refused(program: &str, words: &[&str]) -> Result<bool> {
    let output = Command::new(env::current_exe()?.with_file_name(program)).args(words).output()?;
    let told = String::from_utf8_lossy(&output.stderr).starts_with(&format!("{program}: "));
    Ok(output.status.code() == Some(2) && output.stdout.is_empty() && told)
}
