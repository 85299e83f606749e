//! Word books to be written as text, and the generators of word books.

pub mod random_words;
pub mod recipes;

use crate::books::text::line;
use crate::words::record_words;

/// The phones of each word; the first is word 1.
#[derive(Clone, Debug, Default)]
pub struct WordBook {
    pub words: Vec<Vec<u32>>,
}

impl WordBook {
    pub fn text(&self) -> Vec<u8> {
        let mut text = String::new();
        for (word, phones) in (1..).zip(&self.words) {
            for (place, &phone) in (1..).zip(phones) {
                line(&mut text, 'V', &[word, place, phone]);
            }
        }
        text.into_bytes()
    }

    /// What reading leaves, 65 words for each word.
    pub fn table(&self) -> Vec<u32> {
        record_words(&self.words)
    }
}
