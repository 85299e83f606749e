//! What a call answered and left in memory, and how two outcomes are compared.

use crate::lending::{Lent, Word, Words, AROUND};
use crate::lent_tables::LentTables;
use std::fmt::{Debug, Write};

/// The sides that are compared.
#[derive(Clone, Copy, Debug, PartialEq, Eq)]
pub enum Side {
    /// The entries of libfulgwerz.a.
    Library,
    /// The plain implementation.
    Plain,
    /// What is written for speed: `build`, `combine`, `write_book` and `join`.
    Fast,
}

/// Answer and memory after a call: buffers lent to be filled, and those lent to be read, which stay as they were.
#[derive(Debug, PartialEq, Eq)]
pub struct Outcome {
    pub fault: u32,
    answer: String,
    memory: Vec<(&'static str, Words)>,
}

impl Outcome {
    pub fn new(fault: u32, answer: impl Debug) -> Outcome {
        Outcome { fault, answer: format!("{answer:?}"), memory: Vec::new() }
    }

    pub fn with<W: Word>(mut self, name: &'static str, lent: Lent<W>) -> Outcome {
        self.memory.push((name, lent.left()));
        self
    }

    pub fn with_tables(self, lent: LentTables) -> Outcome {
        let LentTables { nodes, classes, roots, plains } = lent;
        self.with("nodes", nodes).with("classes", classes).with("roots", roots).with("plains", plains)
    }

    /// Both answers, and for each buffer that differs the first words that do.
    pub fn difference(&self, other: &Outcome) -> String {
        let mut text = format!("  {}\n  {}\n", self.answer, other.answer);
        for ((name, words), (_, others)) in self.memory.iter().zip(&other.memory) {
            if let Some(at) = words.first_difference(others) {
                let (here, there, place) = (words.from(at), others.from(at), at as isize - AROUND as isize);
                let _ = writeln!(text, "  {name} from word {place}:\n    {here}\n    {there}");
            }
        }
        text
    }
}
