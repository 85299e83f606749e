//! The documents' ranges and ceilings, and how many words a record takes.

pub const MOST_HALF: u32 = 3;
pub const MOST_STATES: u32 = 3;
pub const MOST_PHONES: u32 = 64;
pub const MOST_CLASSES: u32 = 255;
pub const MOST_NODES: u32 = 4096;
pub const MOST_MODEL: u32 = 65535;
pub const MOST_COMBINATIONS: usize = 65535;
pub const MOST_METASTATES: usize = 65535;
pub const MOST_ARCS: usize = 999_999;
pub const MOST_WORDS: usize = 9999;
/// Phones of a word.
pub const MOST_PLACES: usize = 64;
pub const MOST_JOINED: usize = 65535;
/// Phones of a sequence that is transcribed.
pub const MOST_SOUNDS: usize = 1_000_000;

pub const NODE: usize = 5;
pub const COMBINATION: usize = 11;
pub const METASTATE: usize = 8;
pub const ARC: usize = 4;
pub const WORD: usize = 65;
pub const JOINED: usize = 3;
pub const LINE: usize = 32;

/// In the root table: no R line gives this root.
pub const NO_ROOT: u32 = 4096;

/// The kinds of node in a node's first word.
pub const QUESTION: u32 = 1;
pub const LEAF: u32 = 2;
