//! Word books by recipe: at the ceilings, and for measuring. The same numbers and seed always give the same book.

use super::WordBook;
use crate::limits::{MOST_PLACES, MOST_WORDS};
use crate::random::Random;

/// As many words as there can be, each with this one phone.
pub fn all_alike(phone: u32) -> WordBook {
    WordBook { words: vec![vec![phone]; MOST_WORDS] }
}

/// As many words as there can be, each as long as can be.
pub fn longest() -> WordBook {
    let phone = |word: usize, place: usize| ((word * 7 + place * place) % 64 + 1) as u32;
    let word = |number: usize| (1..=MOST_PLACES).map(|place| phone(number, place)).collect();
    WordBook { words: (1..=MOST_WORDS).map(word).collect() }
}

/// Words of this phone alone that have so many places after a first one in all: 63 a word, the last word the rest.
pub fn places_in_all(phone: u32, places: usize) -> WordBook {
    let most = MOST_PLACES - 1;
    let mut words = vec![vec![phone; MOST_PLACES]; places / most];
    if places % most > 0 {
        words.push(vec![phone; places % most + 1]);
    }
    WordBook { words }
}

/// What a book of spoken words is made from.
#[derive(Clone, Copy, Debug)]
pub struct Spoken {
    pub count: usize,
    /// Phones 2 to this one are said.
    pub phones: u32,
    /// The fewest and the most phones of a word.
    pub lengths: (usize, usize),
    /// The last phone of each word is one of so many.
    pub endings: usize,
    pub seed: u64,
}

/// Different words, as far as there are so many.
pub fn spoken(recipe: Spoken) -> WordBook {
    let Spoken { count, phones, lengths, endings, seed } = recipe;
    let mut random = Random::new(seed);
    let mut words: Vec<Vec<u32>> = Vec::new();
    let mut known = std::collections::HashSet::new();
    while words.len() < count {
        let length = random.between(lengths.0, lengths.1);
        let mut word: Vec<u32> = (0..length).map(|_| random.between(2, phones as usize) as u32).collect();
        word[length - 1] = random.between(2, 1 + endings) as u32;
        if known.insert(word.clone()) {
            words.push(word);
        }
    }
    WordBook { words }
}
