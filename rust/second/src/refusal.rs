//! The refusal numbers with their reasons (document 01, "Refusal numbers").

/// Why a table, a code or a run is refused; the value is the refusal number.
#[derive(Debug, Clone, Copy, PartialEq, Eq)]
pub enum Reason {
    /// Table bytes 0, above 4,096, or not a multiple of 8.
    TableBytes = 1,
    /// Kind not 1 to 7.
    Kind = 2,
    /// Byte 1, or a byte the kind doesn't use, is not zero.
    UnusedByte = 3,
    /// Operand not below its node.
    Operand = 4,
    /// A node but the last is an operand never, or more than once.
    Uses = 5,
    /// Code buffer below 8 bytes an instruction.
    CodeBuffer = 6,
    /// Status not 0 or 1.
    Status = 7,
    /// Stack buffer below 4,096 bytes.
    StackBuffer = 8,
    /// Code bytes 0, above 8,184, or not a multiple of 8.
    CodeBytes = 9,
    /// Opcode not 1 to 8.
    Opcode = 10,
    /// Bytes 1 to 3 or an absent operand not zero, or SET operand not 0 or 1.
    Field = 11,
    /// MARK or UNMARK target not above its own address, or above the length.
    Target = 12,
    /// A push onto 512 items.
    Full = 13,
    /// No rule for the instruction, or at the length without exactly one number.
    NoRule = 14,
    /// 1,535 steps taken and not ended.
    Steps = 15,
}

impl Reason {
    /// The refusal for this reason at a node, an address, or 0.
    pub fn at(self, place: u32) -> Refusal {
        Refusal { reason: self, place }
    }
}

/// A reason with its place.
#[derive(Debug, Clone, Copy, PartialEq, Eq)]
pub struct Refusal {
    pub reason: Reason,
    pub place: u32,
}

impl Refusal {
    /// The number in the first column of document 01's table.
    pub fn number(self) -> u32 {
        self.reason as u32
    }
}
