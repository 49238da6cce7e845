//! That a page beside a buffer may not be touched: the system ends a process that does, so it is one of its own.

use crate::arguments::Touched;
use compare::lent::{Lent, Place};
use std::os::unix::process::ExitStatusExt;
use std::process::{Command, ExitCode};
use std::{env, io};

/// What the system ends such a process with.
const SEGMENTATION_FAULT: i32 = 11;

/// Touches the byte beside a buffer, on the side of the page if there is one.
pub fn touch(place: Place, touched: Touched) -> ExitCode {
    let mut lent = Lent::nothing();
    let buffer = lent.lend(&[7; 100], place);
    // SAFETY: between guards the byte may be touched. On a page it may not, which ends this process and is what is to be shown.
    unsafe {
        let beside = match place {
            Place::Front => buffer.start.sub(1),
            _ => buffer.start.add(buffer.length),
        };
        match touched {
            Touched::Read => drop(beside.read_volatile()),
            Touched::Written => beside.write_volatile(0),
        }
    }
    ExitCode::SUCCESS
}

/// Whether such a process is ended by the system, or comes to its end; neither is an error.
pub fn stopped(place: &str, touched: &str) -> io::Result<bool> {
    let status = Command::new(env::current_exe()?).args(["touch", place, touched]).status()?;
    match (status.signal(), status.success()) {
        (Some(SEGMENTATION_FAULT), _) => Ok(true),
        (None, true) => Ok(false),
        _ => Err(io::Error::other(status.to_string())),
    }
}
