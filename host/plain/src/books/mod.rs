//! Tree books to be written as text: what a book holds, and the generators of books.

pub mod boundaries;
mod boundary_changes;
pub mod broken_boundaries;
pub mod ceilings;
pub mod changes;
pub mod numbering;
pub mod random_books;
pub mod recipes;
pub mod respelling;
pub mod text;
pub mod trees;

use crate::limits::NODE;

/// A node of a tree book; children are node numbers.
#[derive(Clone, Copy, Debug)]
pub enum Node {
    Question { class: u32, position: u32, yes: u32, no: u32 },
    Leaf { model: u32 },
}

/// A tree book. Classes are sets of phones, phone p being the bit worth 2^(p-1); roots stand by phone, then state, and
/// are 4096 where there is no R line. For each phone there is its plain phone, or 0.
#[derive(Clone, Debug)]
pub struct Book {
    pub half: u32,
    pub states: u32,
    pub phones: u32,
    pub classes: Vec<u64>,
    pub nodes: Vec<Node>,
    pub roots: Vec<u32>,
    pub plains: Vec<u32>,
}

impl Book {
    /// How many words of nodes, classes, roots and plain phones reading it leaves.
    pub fn table_lengths(&self) -> [usize; 4] {
        [NODE * self.nodes.len(), self.classes.len(), self.roots.len(), self.plains.len()]
    }

    /// The members of the class with this number, counted from 1.
    pub fn members(&self, class: u32) -> u64 {
        self.classes[class as usize - 1]
    }
}

/// The set of all phones.
pub fn all_phones(phones: u32) -> u64 {
    u64::MAX >> (64 - phones)
}
