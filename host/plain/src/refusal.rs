//! Refusals: a fault by its number in the documents, and a line, 0 where no line is meant.

#[derive(Clone, Copy, Debug, PartialEq, Eq)]
pub struct Refusal {
    pub fault: u32,
    pub line: usize,
}

pub const RAGGED: u32 = 11;
pub const MISPRINT: u32 = 12;
pub const RANGE: u32 = 13;
pub const ORDER: u32 = 14;
pub const BACKWARD: u32 = 15;
pub const ORPHAN: u32 = 16;
pub const COUNT: u32 = 17;
pub const FOREIGN: u32 = 18;
pub const NARROW: u32 = 20;
pub const CHAINED: u32 = 21;
pub const CHOICES: u32 = 30;
pub const CROWD: u32 = 31;
pub const TANGLE: u32 = 32;
pub const SHORT: u32 = 33;
pub const UTTERANCE: u32 = 41;
pub const STATE: u32 = 42;
pub const VOCABULARY: u32 = 51;

/// A refusal without a line of its own.
pub fn refuse<T>(fault: u32) -> Result<T, Refusal> {
    refuse_line(fault, 0)
}

pub fn refuse_line<T>(fault: u32, line: usize) -> Result<T, Refusal> {
    Err(Refusal { fault, line })
}

/// The fault where the condition does not hold.
pub fn require(condition: bool, fault: u32) -> Result<(), Refusal> {
    require_line(condition, fault, 0)
}

pub fn require_line(condition: bool, fault: u32, line: usize) -> Result<(), Refusal> {
    if condition {
        Ok(())
    } else {
        refuse_line(fault, line)
    }
}
