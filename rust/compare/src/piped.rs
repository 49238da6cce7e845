//! What a program writes for an input, by pipe.

use std::io::{Error, Result, Write};
use std::process::{Command, Stdio};
use std::thread;

/// Written by a thread of its own, since a program may write before it has read everything, or leave some of it unread.
pub fn written(program: &str, input: &[u8]) -> Result<String> {
    let mut child = Command::new(program).stdin(Stdio::piped()).stdout(Stdio::piped()).spawn()?;
    let mut pipe = child.stdin.take().expect("a pipe");
    let output = thread::scope(|scope| {
        scope.spawn(move || drop(pipe.write_all(input)));
        child.wait_with_output()
    })?;
    match output.status.success() {
        true => Ok(String::from_utf8_lossy(&output.stdout).into_owned()),
        false => Err(Error::other(format!("{program}: {}", output.status))),
    }
}
