//! Word books that were read and accepted.

use crate::failures::Failure;
use crate::inputs::{self, Text, LINE};
use crate::word_buffers::{self, WordTable};
use crate::word_faults;
use std::collections::HashSet;
use std::ffi::OsStr;

pub struct WordBook {
    pub text: Text,
    pub table: WordTable,
}

impl WordBook {
    /// Reads the file; `-` is standard input.
    pub fn read(path: &OsStr) -> Result<WordBook, Failure> {
        let text = inputs::read(path)?;
        let (answer, table) = word_buffers::read_words(&text.bytes);
        if answer.fault != 0 {
            return Err(word_faults::explain(&text, answer.fault, answer.line));
        }
        Ok(WordBook { text, table })
    }

    /// What is told of it: words and lines, the first of the longest words, the highest phone, and how many words have
    /// just the phones of an earlier one.
    pub fn describe(&self) -> String {
        let words: Vec<&[u32]> = self.table.words().collect();
        let longest = words.iter().map(|word| word.len()).max().unwrap_or(0);
        let first = words.iter().position(|word| word.len() == longest).unwrap_or(0) + 1;
        let highest = words.iter().flat_map(|word| word.iter()).max().unwrap_or(&0);
        let different: HashSet<&[u32]> = words.iter().copied().collect();
        let alike = match words.len() - different.len() {
            0 => String::new(),
            count => format!(", words like an earlier one {count}"),
        };
        let lines = self.text.bytes.len() / LINE;
        let phones = if longest == 1 { "phone" } else { "phones" };
        format!(
            "words {}, lines {lines}, longest word {first} ({longest} {phones}), highest phone {highest}{alike}",
            words.len()
        )
    }
}
