//! The machine (document 01, "One step of the machine"; 001, sections 7 and 8).

use crate::code::Instruction;
use crate::expression::{End, Status};
use crate::refusal::{Reason, Refusal};

/// The items a stack holds at most (refusal 13).
pub const STACK_LIMIT: usize = 512;

/// The steps a run takes at most (refusal 15).
pub const STEP_LIMIT: u32 = 1_535;

/// What the stack holds.
#[derive(Debug, Clone, Copy, PartialEq, Eq)]
enum Item {
    Number(i32),
    Handler(u32),
    Saved(Status),
}

/// Running at an address, or unwinding.
#[derive(Debug, Clone, Copy, PartialEq, Eq)]
enum Mode {
    Running(u32),
    Unwinding,
}

/// Everything a step changes. Private, since only the run takes steps.
#[derive(Debug, Clone, PartialEq, Eq)]
struct State {
    mode: Mode,
    status: Status,
    stack: Vec<Item>,
    steps: u32,
    reached: u32,
}

/// How a run finished, with both totals.
#[derive(Debug, Clone, Copy, PartialEq, Eq)]
pub struct Finish {
    pub end: Result<End, Refusal>,
    pub steps: u32,
    pub reached: u32,
}

/// Runs instructions that have passed tests 9 to 12. `recalls` says whether one
/// is placed at the instruction reached as number k.
///
/// The order is document 01's: an end or 14 at the length, then 15, then a step.
pub fn run(code: &[Instruction], status: Status, recalls: impl Fn(usize) -> bool) -> Finish {
    let mut state = State::fresh(status);
    loop {
        let (steps, reached) = (state.steps, state.reached);
        let finish = |end| Finish { end, steps, reached };
        if let Some(end) = state.end(code) {
            break finish(end);
        }
        if steps == STEP_LIMIT {
            break finish(Err(Reason::Steps.at(0)));
        }
        match state.step(code, &recalls) {
            Ok(next) => state = next,
            Err(refusal) => break finish(Err(refusal)),
        }
    }
}

impl State {
    fn fresh(status: Status) -> State {
        State { mode: Mode::Running(0), status, stack: Vec::new(), steps: 0, reached: 0 }
    }

    /// The ends that take no step, and refusal 14 at the length.
    fn end(&self, code: &[Instruction]) -> Option<Result<End, Refusal>> {
        match (self.mode, self.stack.as_slice()) {
            (Mode::Running(address), _) if (address as usize) < code.len() => None,
            (Mode::Running(_), [Item::Number(n)]) => Some(Ok(End::Number(*n))),
            (Mode::Running(address), _) => Some(Err(Reason::NoRule.at(address))),
            (Mode::Unwinding, []) => Some(Ok(End::Throw)),
            (Mode::Unwinding, _) => None,
        }
    }

    /// The next state; a refused step is in neither total.
    fn step(self, code: &[Instruction], recalls: impl Fn(usize) -> bool) -> Result<State, Refusal> {
        let next = match self.mode {
            Mode::Running(address) => {
                let instruction = code.get(address as usize).ok_or(Reason::NoRule.at(address))?;
                self.reach(address, *instruction, recalls).map_err(|reason| reason.at(address))?
            }
            Mode::Unwinding => self.unwind(),
        };
        Ok(State { steps: next.steps + 1, ..next })
    }

    /// A recall comes before anything the instruction could be refused for.
    fn reach(
        self,
        address: u32,
        instruction: Instruction,
        recalls: impl Fn(usize) -> bool,
    ) -> Result<State, Reason> {
        let cut = self.status == Status::Unblocked && recalls(self.reached as usize);
        let next =
            if cut { State { mode: Mode::Unwinding, ..self } } else { self.carry_out(address, instruction)? };
        Ok(State { reached: next.reached + 1, ..next })
    }

    fn carry_out(mut self, address: u32, instruction: Instruction) -> Result<State, Reason> {
        self.mode = Mode::Running(address + 1);
        match instruction {
            Instruction::Push(n) => self.push(Item::Number(n))?,
            Instruction::Throw => self.mode = Mode::Unwinding,
            Instruction::Add => {
                let m = self.pop_number()?;
                let n = self.pop_number()?;
                self.push(Item::Number(n.wrapping_add(m)))?;
            }
            Instruction::Pop => {
                self.pop_number()?;
            }
            Instruction::Mark(target) => self.push(Item::Handler(target))?,
            Instruction::Unmark(target) => {
                let n = self.pop_number()?;
                self.pop_handler()?;
                self.push(Item::Number(n))?;
                self.mode = Mode::Running(target);
            }
            Instruction::Set(status) => {
                self.push(Item::Saved(self.status))?;
                self.status = status;
            }
            Instruction::Reset => {
                let n = self.pop_number()?;
                self.status = self.pop_saved()?;
                self.push(Item::Number(n))?;
            }
        }
        Ok(self)
    }

    /// Saved statuses are restored on the way down, so that a handler runs in
    /// the status at its MARK.
    fn unwind(mut self) -> State {
        match self.stack.pop() {
            Some(Item::Number(_)) | None => {}
            Some(Item::Saved(status)) => self.status = status,
            Some(Item::Handler(address)) => self.mode = Mode::Running(address),
        }
        self
    }

    fn push(&mut self, item: Item) -> Result<(), Reason> {
        if self.stack.len() >= STACK_LIMIT {
            return Err(Reason::Full);
        }
        self.stack.push(item);
        Ok(())
    }

    fn pop_number(&mut self) -> Result<i32, Reason> {
        match self.stack.pop() {
            Some(Item::Number(n)) => Ok(n),
            _ => Err(Reason::NoRule),
        }
    }

    fn pop_handler(&mut self) -> Result<u32, Reason> {
        match self.stack.pop() {
            Some(Item::Handler(address)) => Ok(address),
            _ => Err(Reason::NoRule),
        }
    }

    fn pop_saved(&mut self) -> Result<Status, Reason> {
        match self.stack.pop() {
            Some(Item::Saved(status)) => Ok(status),
            _ => Err(Reason::NoRule),
        }
    }
}
