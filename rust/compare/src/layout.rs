//! A recipe as table bytes, under any numbering of its nodes in which operands come first.

use crate::chance::Chance;
use second::expression::Expression;

pub const VAL: u8 = 1;
pub const ADD: u8 = 3;
pub const BLOCK: u8 = 6;

/// A recipe's nodes, the left operand's first, then the right's, then the node itself.
pub struct Nodes(Vec<Node>);

struct Node {
    kind: u8,
    number: i32,
    operands: Vec<usize>,
}

/// A number for each node, in the order of `Nodes`.
pub type Numbering = Vec<usize>;

/// Which of the nodes whose operands are numbered comes next.
#[derive(Clone, Copy)]
pub enum Next {
    First,
    Last,
    Any,
}

impl Nodes {
    pub fn of(recipe: &Expression) -> Nodes {
        let mut nodes = Nodes(Vec::new());
        nodes.add(recipe);
        nodes
    }

    fn add(&mut self, recipe: &Expression) -> usize {
        use Expression::*;
        let (kind, number, operands) = match recipe {
            Val(number) => (1, *number, vec![]),
            Throw => (2, 0, vec![]),
            Add(x, y) => (3, 0, vec![self.add(x), self.add(y)]),
            Seqn(x, y) => (4, 0, vec![self.add(x), self.add(y)]),
            Catch(x, y) => (5, 0, vec![self.add(x), self.add(y)]),
            Block(x) => (6, 0, vec![self.add(x)]),
            Unblock(x) => (7, 0, vec![self.add(x)]),
        };
        self.0.push(Node { kind, number, operands });
        self.0.len() - 1
    }

    /// The numbering that the nodes stand in.
    pub fn in_order(&self) -> Numbering {
        (0..self.0.len()).collect()
    }

    /// Another numbering.
    pub fn numbered(&self, next: Next, chance: &mut Chance) -> Numbering {
        let mut waiting: Vec<usize> = self.0.iter().map(|node| node.operands.len()).collect();
        let user = self.users();
        let mut ready: Vec<usize> = (0..self.0.len()).filter(|&node| waiting[node] == 0).collect();
        let mut numbering = vec![0; self.0.len()];
        for number in 0..self.0.len() {
            let node = ready.remove(match next {
                Next::First => 0,
                Next::Last => ready.len() - 1,
                Next::Any => chance.below(ready.len()),
            });
            numbering[node] = number;
            if let Some(user) = user[node] {
                waiting[user] -= 1;
                if waiting[user] == 0 {
                    ready.push(user);
                }
            }
        }
        numbering
    }

    /// Every numbering; there are many unless the recipe is small.
    pub fn all_numberings(&self) -> Vec<Numbering> {
        let mut found = Vec::new();
        self.extend(&mut vec![None; self.0.len()], 0, &mut found);
        found
    }

    fn extend(&self, numbers: &mut Vec<Option<usize>>, next: usize, found: &mut Vec<Numbering>) {
        if next == self.0.len() {
            found.extend(numbers.iter().copied().collect::<Option<Numbering>>());
        }
        for node in 0..self.0.len() {
            let ready = self.0[node].operands.iter().all(|&operand| numbers[operand].is_some());
            if ready && numbers[node].is_none() {
                numbers[node] = Some(next);
                self.extend(numbers, next + 1, found);
                numbers[node] = None;
            }
        }
    }

    /// The node that each is an operand of.
    fn users(&self) -> Vec<Option<usize>> {
        let mut users = vec![None; self.0.len()];
        for (user, node) in self.0.iter().enumerate() {
            for &operand in &node.operands {
                users[operand] = Some(user);
            }
        }
        users
    }

    pub fn table(&self, numbering: &Numbering) -> Vec<u8> {
        let mut table = vec![0; 8 * self.0.len()];
        for (node, &number) in self.0.iter().zip(numbering) {
            let record = &mut table[8 * number..8 * number + 8];
            record[0] = node.kind;
            record[4..8].copy_from_slice(&node.number.to_le_bytes());
            for (place, &operand) in [2, 4].into_iter().zip(&node.operands) {
                record[place..place + 2].copy_from_slice(&(numbering[operand] as u16).to_le_bytes());
            }
        }
        table
    }
}

/// A recipe's table, under a numbering that chance chooses.
pub fn table(recipe: &Expression, chance: &mut Chance) -> Vec<u8> {
    let nodes = Nodes::of(recipe);
    let numbering = match chance.below(4) {
        0 => nodes.in_order(),
        1 => nodes.numbered(Next::First, chance),
        2 => nodes.numbered(Next::Last, chance),
        _ => nodes.numbered(Next::Any, chance),
    };
    nodes.table(&numbering)
}

/// A node's record; the fields that its kind doesn't use are given as 0.
pub fn record(kind: u8, left: usize, right: usize) -> [u8; 8] {
    let ([a, b], [c, d]) = ((left as u16).to_le_bytes(), (right as u16).to_le_bytes());
    [kind, 0, a, b, c, d, 0, 0]
}

/// A Val and Blocks, each over the one before: so many records, of which the first ones are a table too.
pub fn tower(records: usize) -> Vec<[u8; 8]> {
    let blocks = (0..records - 1).map(|below| record(BLOCK, below, 0));
    [record(VAL, 0, 9)].into_iter().chain(blocks).collect()
}
