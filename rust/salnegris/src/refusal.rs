//! Why an input is refused, and where.

use core::error::Error;
use core::fmt::{self, Display, Formatter};

// ---- made from refusals.txt by scripts/refusals: edit it there ----

/// What is wrong with an input; each reason has its number.
#[derive(Debug, Clone, Copy, PartialEq, Eq, Hash, PartialOrd, Ord)]
#[non_exhaustive]
pub enum Reason {
    /// The table has no bytes, more than 4,096, or not a multiple of 8.
    TableSize,
    /// A kind that is not 1 to 7.
    Kind,
    /// Byte 1, or a byte that the kind doesn't use, is not zero.
    UnusedByte,
    /// An operand is not below its node.
    Operand,
    /// A node but the last is used never, or more than once.
    Uses,
    /// The code buffer is below 8 bytes an instruction.
    CodeBuffer,
    /// The status is not 0 or 1.
    Status,
    /// The stack buffer is below 4,096 bytes.
    StackBuffer,
    /// The code has no bytes, more than 8,184, or not a multiple of 8.
    CodeSize,
    /// An opcode that is not 1 to 8.
    Opcode,
    /// Bytes 1 to 3 or an absent operand are not zero, or a SET is not of 0 or 1.
    Field,
    /// A MARK's or UNMARK's target is not above its own address, or is above the length.
    Target,
    /// A push onto 512 items.
    StackFull,
    /// No rule for the instruction, or at the length without exactly one number.
    NoRule,
    /// 1,535 steps taken and not ended.
    Steps,
    /// A number that these bindings have no name for, and a newer library may.
    Unknown(u32),
}

/// What the place of a refusal counts.
#[derive(Debug, Clone, Copy, PartialEq, Eq, Hash)]
#[non_exhaustive]
pub enum Place {
    /// Nothing: the place is 0.
    Whole,
    /// Nodes of the table, from 0.
    Node,
    /// Instructions of the code, from 0.
    Address,
    /// What it counts is not known: that of [`Reason::Unknown`].
    Unknown,
}

impl Reason {
    /// All that have a name, in the order of their numbers.
    pub const ALL: &'static [Reason] = &[
        Reason::TableSize,
        Reason::Kind,
        Reason::UnusedByte,
        Reason::Operand,
        Reason::Uses,
        Reason::CodeBuffer,
        Reason::Status,
        Reason::StackBuffer,
        Reason::CodeSize,
        Reason::Opcode,
        Reason::Field,
        Reason::Target,
        Reason::StackFull,
        Reason::NoRule,
        Reason::Steps,
    ];

    #[rustfmt::skip]
    fn row(self) -> (u32, Place, &'static str) {
        match self {
            Reason::TableSize => (1, Place::Whole, "the table has no bytes, more than 4,096, or not a multiple of 8"),
            Reason::Kind => (2, Place::Node, "a kind that is not 1 to 7"),
            Reason::UnusedByte => (3, Place::Node, "byte 1, or a byte that the kind doesn't use, is not zero"),
            Reason::Operand => (4, Place::Node, "an operand is not below its node"),
            Reason::Uses => (5, Place::Node, "a node but the last is used never, or more than once"),
            Reason::CodeBuffer => (6, Place::Whole, "the code buffer is below 8 bytes an instruction"),
            Reason::Status => (7, Place::Whole, "the status is not 0 or 1"),
            Reason::StackBuffer => (8, Place::Whole, "the stack buffer is below 4,096 bytes"),
            Reason::CodeSize => (9, Place::Whole, "the code has no bytes, more than 8,184, or not a multiple of 8"),
            Reason::Opcode => (10, Place::Address, "an opcode that is not 1 to 8"),
            Reason::Field => (11, Place::Address, "bytes 1 to 3 or an absent operand are not zero, or a SET is not of 0 or 1"),
            Reason::Target =>
                (12, Place::Address, "a MARK's or UNMARK's target is not above its own address, or is above the length"),
            Reason::StackFull => (13, Place::Address, "a push onto 512 items"),
            Reason::NoRule => (14, Place::Address, "no rule for the instruction, or at the length without exactly one number"),
            Reason::Steps => (15, Place::Whole, "1,535 steps taken and not ended"),
            Reason::Unknown(number) => (number, Place::Unknown, "a refusal that is not known here"),
        }
    }
}

impl Place {
    /// The word for what it counts, as in `at node 0`.
    #[must_use]
    pub fn word(self) -> Option<&'static str> {
        match self {
            Place::Whole | Place::Unknown => None,
            Place::Node => Some("node"),
            Place::Address => Some("address"),
        }
    }
}

// ---- end of what is made ----

impl Reason {
    /// Its number, as the C interface gives it.
    #[must_use]
    pub fn number(self) -> u32 {
        self.row().0
    }

    /// The reason of a number: by its name, or else [`Reason::Unknown`].
    #[must_use]
    pub fn numbered(number: u32) -> Reason {
        let named = Reason::ALL.iter().find(|reason| reason.number() == number);
        named.copied().unwrap_or(Reason::Unknown(number))
    }

    /// What its place counts.
    #[must_use]
    pub fn place(self) -> Place {
        self.row().1
    }

    /// What is wrong, in words.
    #[must_use]
    pub fn words(self) -> &'static str {
        self.row().2
    }
}

/// A reason with its place.
#[derive(Debug, Clone, Copy, PartialEq, Eq, Hash)]
pub struct Refusal {
    /// Why.
    pub reason: Reason,
    /// Where, counted as [`Reason::place`] says.
    pub place: u32,
}

/// As in `refused 5 at node 0: a node but the last is used never, or more than once`.
impl Display for Refusal {
    fn fmt(&self, line: &mut Formatter<'_>) -> fmt::Result {
        write!(line, "refused {}", self.reason.number())?;
        match (self.reason.place(), self.reason.place().word()) {
            (_, Some(word)) => write!(line, " at {word} {}", self.place)?,
            (Place::Unknown, None) => write!(line, " at {}", self.place)?,
            (_, None) => (),
        }
        write!(line, ": {}", self.reason.words())
    }
}

impl Error for Refusal {}
