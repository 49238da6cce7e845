//! One input after another, to the second program and to each worker: all fields of the answer and every byte of every lent
//! buffer must be the same, and every byte around them as it was.

use crate::hex::hex;
use crate::lent::{Lent, MOST};
use crate::places::Places;
use crate::tally::Tally;
use crate::worker::Worker;
use second::{Answer, Compiled};
use std::fmt::Debug;
use std::panic::{self, AssertUnwindSafe};

pub struct Trial {
    workers: Vec<Worker>,
    pub tally: Tally,
    /// Where the inputs come from, to be told with a difference.
    pub source: String,
    /// Where the buffers lie; by turns if it is not said.
    pub places: Option<Places>,
    table: Lent,
    code: Lent,
    schedule: Lent,
    stack: Lent,
    /// What stands in a buffer before a call.
    fresh: Vec<u8>,
    wanted: Vec<u8>,
}

impl Trial {
    pub fn new(workers: &[Worker]) -> Trial {
        Trial {
            workers: workers.to_vec(),
            tally: Tally::default(),
            source: String::new(),
            places: None,
            table: Lent::nothing(),
            code: Lent::nothing(),
            schedule: Lent::nothing(),
            stack: Lent::nothing(),
            fresh: (0..MOST).map(|k| 1 + (k % 251) as u8).collect(),
            wanted: vec![0; MOST],
        }
    }

    /// Compiles a table into a buffer with so much room.
    pub fn compile(&mut self, table: &[u8], room: usize) -> Compiled {
        let places = self.next_places();
        let wanted = &mut self.wanted[..room];
        wanted.copy_from_slice(&self.fresh[..room]);
        let answer = second::compile(table, wanted);
        self.tally.compiled(answer);
        for worker in &self.workers {
            let lent_table = self.table.lend(table, places.table);
            let lent_code = self.code.lend(&self.fresh[..room], places.code);
            // SAFETY: both are lent apart, and may be written as far as the guards reach.
            let given = unless_panicked(|| unsafe { (worker.compile)(lent_table, lent_code) });
            let same = given == Some(answer) && self.code.holds(wanted) && self.table.holds(table);
            if !same {
                self.tally.differs(|| {
                    format!(
                        "{}: {} compiles table {} with room for {room} bytes, {places:?}\n{}",
                        self.source,
                        worker.name,
                        hex(table),
                        difference(&answer, &given, wanted, self.code.lent_bytes())
                    )
                });
            }
        }
        answer
    }

    /// The code that was compiled last.
    pub fn code(&self, compiled: Compiled) -> Vec<u8> {
        self.wanted[..8 * compiled.length as usize].to_vec()
    }

    /// Runs code with so much room for the stack.
    pub fn run(&mut self, status: u8, code: &[u8], schedule: &[u8], room: usize) -> Answer {
        let places = self.next_places();
        let wanted = &mut self.wanted[..room];
        wanted.copy_from_slice(&self.fresh[..room]);
        let answer = second::run(status, code, schedule, wanted);
        self.tally.ran(answer);
        for worker in &self.workers {
            let lent_code = self.code.lend(code, places.code);
            let lent_schedule = self.schedule.lend(schedule, places.schedule);
            let lent_stack = self.stack.lend(&self.fresh[..room], places.stack);
            // SAFETY: the three are lent apart, and may be written as far as the guards reach.
            let given =
                unless_panicked(|| unsafe { (worker.run)(status, lent_code, lent_schedule, lent_stack) });
            let same = given == Some(answer)
                && self.stack.holds(wanted)
                && self.code.holds(code)
                && self.schedule.holds(schedule);
            if !same {
                self.tally.differs(|| {
                    format!(
                        "{}: {} runs code {} from status {status} under schedule {} with room for {room} bytes, {places:?}\n{}",
                        self.source,
                        worker.name,
                        hex(code),
                        hex(schedule),
                        difference(&answer, &given, wanted, self.stack.lent_bytes())
                    )
                });
            }
        }
        answer
    }

    pub fn workers(&self) -> Vec<Worker> {
        self.workers.clone()
    }

    /// A claim about answers, beside that they are the same.
    pub fn claim(&mut self, what: &str, holds: bool) {
        if !holds {
            self.tally.differs(|| format!("{}: not so: {what}", self.source));
        }
    }

    fn next_places(&self) -> Places {
        self.places.unwrap_or_else(|| Places::by_turns(self.tally.inputs))
    }
}

/// A worker's answer, unless it panics; its message stands on standard error then.
fn unless_panicked<A>(call: impl FnOnce() -> A) -> Option<A> {
    // a worker keeps nothing between calls, and the buffers are filled anew before each
    panic::catch_unwind(AssertUnwindSafe(call)).ok()
}

fn difference<A: Debug>(wanted: &A, given: &Option<A>, buffer_wanted: &[u8], buffer: &[u8]) -> String {
    let byte = match (0..buffer.len()).find(|&k| buffer[k] != buffer_wanted[k]) {
        Some(k) => format!("byte {k} of the buffer: {:02x}, wanted {:02x}", buffer[k], buffer_wanted[k]),
        None => {
            "the buffer is as wanted; where the answer is too, a byte beside it or of an input was written"
                .to_string()
        }
    };
    let given = given.as_ref().map_or("a panic".to_string(), |given| format!("{given:?}"));
    format!("  wanted {wanted:?}\n  given  {given}\n  {byte}")
}
