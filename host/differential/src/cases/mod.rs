//! Cases: for each entry, random input and lent lengths; and fixed ones.

mod apart;
mod arcs;
mod building;
mod ceilings;
mod combining;
mod foreign_tables;
mod join_ceilings;
mod joining;
mod lookup;
mod networks;
mod plain_forms;
mod reading;
mod reading_words;
mod round_trips;
mod small_books;
mod spellings;
mod tables;
mod transcription;
mod word_tables;
mod writing_books;

use crate::outcome::{Outcome, Side};
use plain::random::Random;

/// One call of one entry, which each side can make.
pub trait Case {
    fn entry(&self) -> &'static str;

    /// The sides that are compared with the library.
    fn others(&self) -> &'static [Side] {
        &[Side::Plain]
    }

    fn call(&self, side: Side) -> Outcome;

    /// The input in full, so that the case can be made again elsewhere.
    fn input(&self) -> String;
}

type Maker = fn(&mut Random) -> Box<dyn Case>;

/// The kinds of case with their shares, which are a hundred in all.
const MAKERS: [(usize, Maker); 16] = [
    (15, reading::case),
    (7, lookup::case),
    (8, transcription::case),
    (6, combining::case),
    (10, building::build_case),
    (6, building::build_book_case),
    (6, apart::case),
    (5, arcs::leaving_case),
    (4, arcs::write_case),
    (5, networks::case),
    (2, round_trips::case),
    (5, writing_books::case),
    (3, spellings::case),
    (2, plain_forms::case),
    (5, reading_words::case),
    (11, joining::case),
];

/// The case of this number: the same for the same seed.
pub fn case(seed: u64, number: u64) -> Box<dyn Case> {
    let mut random = Random::new(Random::new(seed).word() ^ Random::new(number).word());
    let mut place = random.below(100);
    for (share, make) in MAKERS {
        if place < share {
            return make(&mut random);
        }
        place -= share;
    }
    unreachable!("the shares are a hundred")
}

/// Cases that do not depend on a seed.
pub fn fixed() -> Vec<Box<dyn Case>> {
    ceilings::cases().into_iter().chain(small_books::cases()).chain(join_ceilings::cases()).collect()
}
