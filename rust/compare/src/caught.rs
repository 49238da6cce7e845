//! Recipes that go on where a recall strikes them, and schedules whose recalls do strike: what the benchmark runs recalled.

use crate::chance::Chance;
use second::code::Instruction;
use second::expression::Expression::{self, *};
use second::expression::{End, Status};
use second::machine;

/// The outline of such a recipe; its size is given apart.
#[derive(Clone, Copy)]
pub enum Caught {
    /// Catches one after the other, each over Blocks and Unblocks in one another.
    Depths,
    /// Adds, as even as it goes, over Catches.
    Adds,
    /// Catches whose left operand is the rest, so that a handler can be struck too.
    Chain,
    /// Anything over Catches, parts of it blocked.
    Mixed,
}

/// Nodes of one of the depths, with the node that joins it to the rest.
const DEPTH: usize = 10;

impl Caught {
    /// A recipe of this outline with just so many nodes.
    pub fn recipe(self, nodes: usize, chance: &mut Chance) -> Expression {
        match (self, nodes) {
            (_, 0) => unreachable!("a recipe has a node"),
            (_, 1) => Val(chance.below(17) as i32),
            (_, 2) | (Caught::Adds | Caught::Mixed, 4) => Unblock(self.boxed(nodes - 1, chance)),
            (_, 3) | (Caught::Chain, _) => Catch(self.boxed(nodes - 2, chance), self.boxed(1, chance)),
            (Caught::Depths, _) if nodes > 2 * DEPTH => {
                Seqn(self.boxed(DEPTH - 1, chance), self.boxed(nodes - DEPTH, chance))
            }
            (Caught::Depths, _) => Catch(depth(nodes - 2), self.boxed(1, chance)),
            (Caught::Adds, _) => self.two(Add, (nodes - 1) / 2, nodes, chance),
            (Caught::Mixed, _) => match chance.below(8) {
                0 => Block(self.boxed(nodes - 1, chance)),
                1 => Unblock(self.boxed(nodes - 1, chance)),
                2..5 => self.two(Add, chance.between(1, nodes - 2), nodes, chance),
                _ => self.two(Seqn, chance.between(1, nodes - 2), nodes, chance),
            },
        }
    }

    fn two(
        self,
        both: fn(Box<Expression>, Box<Expression>) -> Expression,
        left: usize,
        nodes: usize,
        chance: &mut Chance,
    ) -> Expression {
        both(self.boxed(left, chance), self.boxed(nodes - 1 - left, chance))
    }

    fn boxed(self, nodes: usize, chance: &mut Chance) -> Box<Expression> {
        Box::new(self.recipe(nodes, chance))
    }
}

/// A Val in Unblocks and Blocks by turns, the innermost an Unblock: so many nodes.
fn depth(nodes: usize) -> Box<Expression> {
    (1..nodes)
        .fold(Box::new(Val(1)), |inner, k| Box::new(if k % 2 == 1 { Unblock(inner) } else { Block(inner) }))
}

/// A schedule, and how many of its recalls strike.
pub struct Striking {
    pub schedule: Vec<u8>,
    pub recalls: usize,
}

/// Recalls that all strike, from unblocked, and after each of which the run goes on: two in three of those instructions, upward, at
/// which a recall changes the run, leaves it a number for its end, and makes it no shorter.
pub fn striking(code: &[Instruction], chance: &mut Chance) -> Striking {
    let run =
        |asked: &[bool]| machine::run(code, Status::Unblocked, |k| asked.get(k).copied().unwrap_or(false));
    let mut asked = vec![];
    let mut before = run(&asked);
    let mut recalls = 0;
    while asked.len() < before.reached as usize {
        asked.push(true);
        let struck = run(&asked);
        let changed =
            (struck.steps, struck.reached) != (before.steps, before.reached) || struck.end != before.end;
        let goes_on = matches!(struck.end, Ok(End::Number(_))) && struck.steps >= before.steps;
        if changed && goes_on && !chance.one_in(3) {
            before = struck;
            recalls += 1;
        } else {
            asked.pop();
            asked.push(false);
        }
    }
    Striking { schedule: bits(&asked), recalls }
}

/// Bit k of byte k / 8, least significant first.
fn bits(asked: &[bool]) -> Vec<u8> {
    asked.chunks(8).map(|byte| (0..).zip(byte).map(|(k, &bit)| u8::from(bit) << k).sum()).collect()
}
