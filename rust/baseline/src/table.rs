//! The recipe table: its records and the tests 1 to 5.

use crate::Refusal;

pub const VAL: u8 = 1;
pub const THROW: u8 = 2;
pub const ADD: u8 = 3;
pub const SEQN: u8 = 4;
pub const CATCH: u8 = 5;
pub const BLOCK: u8 = 6;

pub const MAX_NODES: usize = 512;

/// One record, its fields read from the little-endian word.
#[derive(Clone, Copy)]
pub struct Node(u64);

impl Node {
    #[inline(always)]
    pub fn read(record: &[u8; 8]) -> Self {
        Self(u64::from_le_bytes(*record))
    }

    #[inline(always)]
    pub fn kind(self) -> u8 {
        self.0 as u8
    }

    #[inline(always)]
    pub fn left(self) -> usize {
        (self.0 >> 16) as u16 as usize
    }

    #[inline(always)]
    pub fn right(self) -> usize {
        (self.0 >> 32) as u16 as usize
    }

    #[inline(always)]
    pub fn number(self) -> u32 {
        (self.0 >> 32) as u32
    }
}

/// What document 01 says of a kind: the bits that must be zero, the bits of
/// its operands, how many it has on each side, the instructions it adds.
struct Rule {
    zero: u64,
    operands: u64,
    lefts: u16,
    rights: u16,
    adds: usize,
}

const LEAF: u64 = 0;
const LEFT: u64 = 0x0000_0000_ffff_0000;
const BOTH: u64 = 0x0000_ffff_ffff_0000;
const NUMBER: u64 = 0xffff_ffff_0000_0000;

const fn rule(operands: u64, number: u64, adds: usize) -> Rule {
    Rule {
        zero: !(operands | number | 0xff),
        operands,
        lefts: (operands != LEAF) as u16,
        rights: (operands == BOTH) as u16,
        adds,
    }
}

/// By kind, kind 1 first.
static RULES: [Rule; 7] = [
    rule(LEAF, NUMBER, 1),
    rule(LEAF, 0, 1),
    rule(BOTH, 0, 1),
    rule(BOTH, 0, 1),
    rule(BOTH, 0, 2),
    rule(LEFT, 0, 2),
    rule(LEFT, 0, 2),
];

/// Tests 1 to 5; hands back the records and the length of their code.
#[inline(always)]
pub fn check(table: &[u8]) -> Result<(&[[u8; 8]], usize), Refusal> {
    let (records, rest) = table.as_chunks::<8>();
    if records.is_empty() || records.len() > MAX_NODES || !rest.is_empty() {
        return Err(Refusal::at(0, 1));
    }
    let mut uses = [0u16; MAX_NODES];
    let mut length = 0;
    for (place, record) in records.iter().enumerate() {
        let node = Node::read(record);
        let Some(rule) = RULES.get(usize::from(node.kind()).wrapping_sub(1)) else {
            return Err(Refusal::at(place, 2));
        };
        if node.0 & rule.zero != 0 {
            return Err(Refusal::at(place, 3));
        }
        // Without operands both are node 0, counted no times: no branch on
        // the kind, as kinds come in no order.
        let operands = Node(node.0 & rule.operands);
        let (left, right) = (operands.left(), operands.right());
        if left + usize::from(rule.lefts) > place || right + usize::from(rule.rights) > place {
            return Err(Refusal::at(place, 4));
        }
        uses[left] += rule.lefts;
        uses[right] += rule.rights;
        length += rule.adds;
    }
    match uses[..records.len() - 1].iter().position(|&n| n != 1) {
        Some(place) => Err(Refusal::at(place, 5)),
        None => Ok((records, length)),
    }
}
