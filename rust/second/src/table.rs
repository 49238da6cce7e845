//! From the bytes of a recipe table to the tree (document 01, "The recipe
//! table", and tests 1 to 5 of "Refusal numbers").

use crate::expression::Expression;
use crate::refusal::{Reason, Refusal};

/// Bytes of one record.
const RECORD: usize = 8;

/// Nodes of the largest table: 4,096 bytes.
const LARGEST: usize = 512;

/// One record whose operands are still node numbers.
#[derive(Debug, Clone, Copy)]
enum Node {
    Val(i32),
    Throw,
    Add(u16, u16),
    Seqn(u16, u16),
    Catch(u16, u16),
    Block(u16),
    Unblock(u16),
}

/// The expression that a table describes, or the first refusal in document 01's
/// order: 1; then each node upward for 2, 3, 4; then 5.
pub fn read(table: &[u8]) -> Result<Expression, Refusal> {
    let (records, rest) = table.as_chunks::<RECORD>();
    if !(1..=LARGEST).contains(&records.len()) || !rest.is_empty() {
        return Err(Reason::TableBytes.at(0));
    }
    let mut nodes = Vec::with_capacity(records.len());
    for (number, record) in (0..).zip(records) {
        nodes.push(Node::read(number, record).map_err(|reason| reason.at(u32::from(number)))?);
    }
    let last = nodes.len() - 1;
    match wrongly_used(&nodes, last) {
        Some(node) => Err(Reason::Uses.at(node as u32)),
        None => Ok(tree(&nodes, last)),
    }
}

/// The lowest node but the last that is an operand never, or more than once.
fn wrongly_used(nodes: &[Node], last: usize) -> Option<usize> {
    let mut uses = [0_u32; LARGEST];
    for operand in nodes.iter().flat_map(|node| node.operands()) {
        uses[usize::from(operand)] += 1;
    }
    uses.iter().take(last).position(|&times| times != 1)
}

/// The walk down always reaches a smaller node number, and by test 5 comes to
/// each node once.
fn tree(nodes: &[Node], number: usize) -> Expression {
    let operand = |number| Box::new(tree(nodes, usize::from(number)));
    match nodes[number] {
        Node::Val(n) => Expression::Val(n),
        Node::Throw => Expression::Throw,
        Node::Add(x, y) => Expression::Add(operand(x), operand(y)),
        Node::Seqn(x, y) => Expression::Seqn(operand(x), operand(y)),
        Node::Catch(x, y) => Expression::Catch(operand(x), operand(y)),
        Node::Block(x) => Expression::Block(operand(x)),
        Node::Unblock(x) => Expression::Unblock(operand(x)),
    }
}

impl Node {
    /// Tests 2, 3 and 4 of one node, in this order.
    fn read(number: u16, record: &[u8; RECORD]) -> Result<Node, Reason> {
        let node = Node::decode(record)?;
        if node.operands().any(|operand| operand >= number) {
            return Err(Reason::Operand);
        }
        Ok(node)
    }

    /// A pattern has a 0 where its kind uses no byte, so a record of a kind that
    /// fits no pattern has a wrong zero.
    fn decode(record: &[u8; RECORD]) -> Result<Node, Reason> {
        let operand = |low, high| u16::from_le_bytes([low, high]);
        match *record {
            [1, 0, 0, 0, a, b, c, d] => Ok(Node::Val(i32::from_le_bytes([a, b, c, d]))),
            [2, 0, 0, 0, 0, 0, 0, 0] => Ok(Node::Throw),
            [3, 0, a, b, c, d, 0, 0] => Ok(Node::Add(operand(a, b), operand(c, d))),
            [4, 0, a, b, c, d, 0, 0] => Ok(Node::Seqn(operand(a, b), operand(c, d))),
            [5, 0, a, b, c, d, 0, 0] => Ok(Node::Catch(operand(a, b), operand(c, d))),
            [6, 0, a, b, 0, 0, 0, 0] => Ok(Node::Block(operand(a, b))),
            [7, 0, a, b, 0, 0, 0, 0] => Ok(Node::Unblock(operand(a, b))),
            [1..=7, ..] => Err(Reason::UnusedByte),
            _ => Err(Reason::Kind),
        }
    }

    fn operands(self) -> impl Iterator<Item = u16> {
        let (left, right) = match self {
            Node::Val(_) | Node::Throw => (None, None),
            Node::Add(x, y) | Node::Seqn(x, y) | Node::Catch(x, y) => (Some(x), Some(y)),
            Node::Block(x) | Node::Unblock(x) => (Some(x), None),
        };
        left.into_iter().chain(right)
    }
}
