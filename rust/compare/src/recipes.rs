//! Recipes to try: all small ones, and large ones of every shape.

use crate::chance::Chance;
use second::expression::Expression::{self, *};

/// All recipes of so many nodes over these leaves.
pub fn all(nodes: usize, leaves: &[Expression]) -> Vec<Expression> {
    if nodes == 1 {
        return leaves.to_vec();
    }
    let mut found = Vec::new();
    for x in all(nodes - 1, leaves) {
        found.push(Block(Box::new(x.clone())));
        found.push(Unblock(Box::new(x)));
    }
    for left in 1..nodes - 1 {
        for x in all(left, leaves) {
            for y in all(nodes - 1 - left, leaves) {
                for both in [Add, Seqn, Catch] {
                    found.push(both(Box::new(x.clone()), Box::new(y.clone())));
                }
            }
        }
    }
    found
}

/// A recipe's outline; its size is given apart.
#[derive(Clone, Copy, PartialEq)]
pub enum Shape {
    /// Blocks in Blocks over one Val.
    DeepBlocks,
    /// Blocks and Unblocks in one another.
    Openings,
    /// Adds, as even as it goes.
    WideAdds,
    /// Adds whose right operand is the rest.
    AddChain,
    /// Catches whose left operand is the rest, down to a Throw.
    CatchChain,
    /// Catches whose right operand is the rest, each over a Throw.
    HandlerChain,
    /// Seqns whose right operand is the rest.
    SeqnChain,
    /// Anything but a Throw, so that it goes through if no recall comes.
    Working,
    /// Anything.
    Mixed,
}

pub const SHAPES: [Shape; 9] = [
    Shape::DeepBlocks,
    Shape::Openings,
    Shape::WideAdds,
    Shape::AddChain,
    Shape::CatchChain,
    Shape::HandlerChain,
    Shape::SeqnChain,
    Shape::Working,
    Shape::Mixed,
];

impl Shape {
    /// A recipe of this shape with just so many nodes. Where a shape has odd sizes alone, a Block makes up for it.
    pub fn recipe(self, nodes: usize, chance: &mut Chance) -> Expression {
        match (self, nodes) {
            (_, 0) => unreachable!("a recipe has a node"),
            (Shape::Mixed, 1) if chance.one_in(8) => Throw,
            (Shape::CatchChain, 1) => Throw,
            (_, 1) => Val(number(chance)),
            (Shape::Working | Shape::Mixed, _) => self.any(nodes, chance),
            (Shape::DeepBlocks, _) | (_, 2) => Block(self.boxed(nodes - 1, chance)),
            (Shape::Openings, _) => chance.pick(&[Block, Unblock])(self.boxed(nodes - 1, chance)),
            (Shape::WideAdds, _) => {
                let left = (nodes - 1) / 2;
                Add(self.boxed(left, chance), self.boxed(nodes - 1 - left, chance))
            }
            (Shape::AddChain, _) => Add(lanes(chance), self.boxed(nodes - 2, chance)),
            (Shape::CatchChain, _) => Catch(self.boxed(nodes - 2, chance), Box::new(Throw)),
            (Shape::HandlerChain, _) => Catch(Box::new(Throw), self.boxed(nodes - 2, chance)),
            (Shape::SeqnChain, _) => Seqn(lanes(chance), self.boxed(nodes - 2, chance)),
        }
    }

    /// Any node with operands, as often lopsided as not.
    fn any(self, nodes: usize, chance: &mut Chance) -> Expression {
        if nodes == 2 || chance.one_in(4) {
            return chance.pick(&[Block, Unblock])(self.boxed(nodes - 1, chance));
        }
        let most = if chance.one_in(2) { nodes - 2 } else { (nodes - 2).min(4) };
        let part = chance.between(1, most);
        let (left, right) =
            if chance.one_in(2) { (part, nodes - 1 - part) } else { (nodes - 1 - part, part) };
        let (both, left, right): (fn(_, _) -> _, _, _) = match chance.below(3) {
            0 => (Add, left, right),
            1 => (Seqn, left, right),
            // a large handler that is never run would be no work
            _ if self == Shape::Working => (Catch, left.max(right), left.min(right)),
            _ => (Catch, left, right),
        };
        both(self.boxed(left, chance), self.boxed(right, chance))
    }

    fn boxed(self, nodes: usize, chance: &mut Chance) -> Box<Expression> {
        Box::new(self.recipe(nodes, chance))
    }
}

fn lanes(chance: &mut Chance) -> Box<Expression> {
    Box::new(Val(number(chance)))
}

/// Lane counts, and numbers near the ends of their range.
fn number(chance: &mut Chance) -> i32 {
    match chance.below(4) {
        0 => chance.word() as i32,
        1 => chance.pick(&[i32::MIN, i32::MIN + 1, -1, 0, 1, i32::MAX - 1, i32::MAX]),
        _ => chance.below(17) as i32,
    }
}
