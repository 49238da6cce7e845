//! Expressions, statuses and ends (001, sections 2 and 5).

/// A recipe as a tree (001, `data Expr`).
///
/// The functions on it call themselves on its operands: the tree of a table is
/// at most 512 nodes deep, and deeper ones are not meant.
#[derive(Debug, Clone, PartialEq, Eq)]
pub enum Expression {
    Val(i32),
    Throw,
    Add(Box<Expression>, Box<Expression>),
    Seqn(Box<Expression>, Box<Expression>),
    Catch(Box<Expression>, Box<Expression>),
    Block(Box<Expression>),
    Unblock(Box<Expression>),
}

impl Expression {
    /// How many records a table of this expression has.
    pub fn nodes(&self) -> usize {
        match self {
            Expression::Val(_) | Expression::Throw => 1,
            Expression::Add(x, y) | Expression::Seqn(x, y) | Expression::Catch(x, y) => {
                1 + x.nodes() + y.nodes()
            }
            Expression::Block(x) | Expression::Unblock(x) => 1 + x.nodes(),
        }
    }
}

/// Whether recalls are held off (001, section 5: `data Status = B | U`).
#[derive(Debug, Clone, Copy, PartialEq, Eq, PartialOrd, Ord, Hash)]
pub enum Status {
    Blocked,
    Unblocked,
}

impl Status {
    /// Document 01: a status is 0, blocked, or 1, unblocked.
    pub fn from_byte(byte: u8) -> Option<Status> {
        match byte {
            0 => Some(Status::Blocked),
            1 => Some(Status::Unblocked),
            _ => None,
        }
    }

    /// The inverse of [`Status::from_byte`].
    pub fn byte(self) -> u8 {
        match self {
            Status::Blocked => 0,
            Status::Unblocked => 1,
        }
    }
}

/// What an expression ends in (001, `Value`): a number, or an uncaught throw.
#[derive(Debug, Clone, Copy, PartialEq, Eq, PartialOrd, Ord, Hash)]
pub enum End {
    Number(i32),
    Throw,
}
