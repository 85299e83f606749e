//! Random word books, most of them small: words that sound alike, that begin alike, that have one phone, that have
//! silence inside, and that have phones which the network lacks.

use super::WordBook;
use crate::books::random_books::how_many;
use crate::limits::{MOST_PHONES, MOST_PLACES};
use crate::random::Random;

/// Words for a network of so many phones.
pub fn random_words(random: &mut Random, phones: u32) -> WordBook {
    let count = how_many(random, &[(75, 1, 5), (22, 6, 20), (3, 21, 80)]);
    let mut words = Vec::new();
    for _ in 0..count {
        words.push(word(random, phones, &words));
    }
    WordBook { words }
}

fn word(random: &mut Random, phones: u32, before: &[Vec<u32>]) -> Vec<u32> {
    match random.below(10) {
        0 if !before.is_empty() => random.pick(before).clone(),
        1 if !before.is_empty() => {
            let mut longer = random.pick(before).clone();
            longer.push(phone(random, phones));
            longer.truncate(MOST_PLACES);
            longer
        }
        2 | 3 => vec![phone(random, phones)],
        _ => {
            let length = how_many(random, &[(90, 1, 4), (8, 5, 12), (1, 13, 63), (1, 64, 64)]);
            (0..length).map(|_| phone(random, phones)).collect()
        }
    }
}

/// Silence now and then, mostly another phone of the network, seldom any.
fn phone(random: &mut Random, phones: u32) -> u32 {
    match random.below(20) {
        0 | 1 => 1,
        2 => random.between(1, MOST_PHONES as usize) as u32,
        _ if phones > 1 => random.between(2, phones as usize) as u32,
        _ => 1,
    }
}
