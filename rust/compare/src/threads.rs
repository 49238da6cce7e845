//! Rounds in threads.

use crate::WORKERS;
use compare::parts::rounds;
use compare::tally::Tally;
use compare::trial::Trial;
use std::sync::atomic::{AtomicU64, Ordering::Relaxed};
use std::thread;
use std::time::{Duration, Instant};

/// Each takes every so-manieth round; fixed, so that the same rounds are made on every machine.
const THREADS: u64 = 2;

/// Rounds until so many inputs are tried.
pub fn rounds(inputs: u64, seed: u64) -> Tally {
    let tried = AtomicU64::new(0);
    thread::scope(|scope| {
        let tried = &tried;
        let threads: Vec<_> = (0..THREADS)
            .map(|first| scope.spawn(move || every_few(first, inputs.div_ceil(THREADS), seed, tried)))
            .collect();
        let started = Instant::now();
        let mut said = Instant::now();
        while threads.iter().any(|thread| !thread.is_finished()) {
            thread::sleep(Duration::from_millis(20));
            if said.elapsed() > Duration::from_secs(10) {
                said = Instant::now();
                eprintln!("{} of {inputs} inputs, {} s", tried.load(Relaxed), started.elapsed().as_secs());
            }
        }
        let mut whole = Tally::default();
        for thread in threads {
            whole.add(thread.join().expect("a thread ends"));
        }
        whole
    })
}

fn every_few(first: u64, inputs: u64, seed: u64, tried: &AtomicU64) -> Tally {
    let mut trial = Trial::new(&WORKERS);
    let mut number = first;
    while trial.tally.inputs < inputs {
        let before = trial.tally.inputs;
        rounds::round(&mut trial, seed, number);
        tried.fetch_add(trial.tally.inputs - before, Relaxed);
        number += THREADS;
    }
    trial.tally
}
