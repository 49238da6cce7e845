//! The machine's state and its steps.

use crate::code::{self, Instruction};
use crate::item::{Item, Stack, HANDLER, NUMBER, STATUS};

/// The schedule as far as a run can reach it, zero past its end.
pub type Recalls = [u8; 256];

#[derive(Clone, Copy)]
pub struct State {
    pub address: usize,
    pub height: usize,
    pub status: u32,
    pub unwinding: bool,
    pub steps: u32,
    pub reached: u32,
}

impl State {
    pub const STEPS: u32 = 1535;
    pub const ITEMS: usize = 512;
    pub const CODE: usize = 1023;

    pub fn fresh(status: u8) -> Self {
        Self { address: 0, height: 0, status: u32::from(status), unwinding: false, steps: 0, reached: 0 }
    }

    /// One step at an instruction. A refused step hands back its refusal
    /// and counts in neither total, so the counts are raised last.
    #[inline(always)]
    pub fn step(self, instruction: Instruction, recalls: &Recalls, stack: &mut Stack) -> Result<Self, u32> {
        let next = if self.recalled(recalls) { self.cut() } else { self.carry_out(instruction, stack)? };
        Ok(Self { steps: next.steps + 1, reached: next.reached + 1, ..next })
    }

    /// One step of unwinding: the top item is removed.
    #[inline(always)]
    pub fn unwind(self, top: Item) -> Self {
        let next = Self { steps: self.steps + 1, ..self.lower() };
        match top.sort() {
            NUMBER => next,
            HANDLER => Self { unwinding: false, ..next.to(top.value() as usize) },
            _ => Self { status: top.value(), ..next },
        }
    }

    #[inline(always)]
    pub fn top(self, stack: &Stack) -> Option<Item> {
        stack.get(self.height.wrapping_sub(1)).map(Item::read)
    }

    /// What an instruction does, but for the counts. The opcode is 1 to 8,
    /// so its low three bits tell it, RESET being 0.
    #[inline(always)]
    fn carry_out(self, instruction: Instruction, stack: &mut Stack) -> Result<Self, u32> {
        let operand = instruction.operand();
        match instruction.opcode() & 7 {
            code::PUSH => Ok(self.push(stack, Item::new(NUMBER, operand))?.onward()),
            code::THROW => Ok(self.cut()),
            code::ADD => match self.pair(stack) {
                Some((slot, x, y)) if x.both_numbers(y) => {
                    let sum = (x.value() as i32).wrapping_add(y.value() as i32);
                    *slot = Item::new(NUMBER, sum as u32).bytes();
                    Ok(self.lower().onward())
                }
                _ => Err(14),
            },
            code::POP => match self.top(stack) {
                Some(x) if x.sort() == NUMBER => Ok(self.lower().onward()),
                _ => Err(14),
            },
            code::MARK => Ok(self.push(stack, Item::new(HANDLER, operand))?.onward()),
            code::UNMARK => match self.pair(stack) {
                Some((slot, x, y)) if x.sort() == HANDLER && y.sort() == NUMBER => {
                    *slot = y.bytes();
                    Ok(self.lower().to(operand as usize))
                }
                _ => Err(14),
            },
            code::SET => {
                Ok(Self { status: operand, ..self.push(stack, Item::new(STATUS, self.status))?.onward() })
            }
            _ => match self.pair(stack) {
                Some((slot, x, y)) if x.sort() == STATUS && y.sort() == NUMBER => {
                    *slot = y.bytes();
                    Ok(Self { status: x.value(), ..self.lower().onward() })
                }
                _ => Err(14),
            },
        }
    }

    /// Whether the schedule asks for a recall at the instruction reached now.
    #[inline(always)]
    fn recalled(self, recalls: &Recalls) -> bool {
        let byte = recalls[self.reached as usize / 8 % recalls.len()];
        self.status == 1 && byte >> (self.reached % 8) & 1 == 1
    }

    /// The two top items, the lower one with its slot. One test of the
    /// height serves both.
    #[inline(always)]
    fn pair(self, stack: &mut Stack) -> Option<(&mut [u8; 8], Item, Item)> {
        let below = self.height.wrapping_sub(2);
        if below >= Self::ITEMS - 1 {
            return None;
        }
        let y = Item::read(&stack[below + 1]);
        let slot = &mut stack[below];
        let x = Item::read(slot);
        Some((slot, x, y))
    }

    #[inline(always)]
    fn push(self, stack: &mut Stack, item: Item) -> Result<Self, u32> {
        let slot = stack.get_mut(self.height).ok_or(13u32)?;
        *slot = item.bytes();
        Ok(Self { height: self.height + 1, ..self })
    }

    #[inline(always)]
    fn lower(self) -> Self {
        Self { height: self.height - 1, ..self }
    }

    #[inline(always)]
    fn to(self, address: usize) -> Self {
        Self { address, ..self }
    }

    #[inline(always)]
    fn onward(self) -> Self {
        self.to(self.address + 1)
    }

    #[inline(always)]
    fn cut(self) -> Self {
        Self { unwinding: true, ..self }
    }
}
