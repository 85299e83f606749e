//! Tables that were changed after reading; most of them are foreign.

use super::tables::OwnTables;
use fulgwerz::Header;
use plain::books::broken_boundaries::broken;
use plain::books::random_books::random_book;
use plain::limits::NO_ROOT;
use plain::random::Random;

impl OwnTables {
    /// Changes a word, the header or a length, or takes those of a book that breaks a rule about boundary phones.
    pub fn change(&mut self, random: &mut Random) {
        match random.below(18) {
            0..=2 => self.change_header(random),
            3..=5 => change_word(random, &mut self.nodes),
            6 => change_class(random, &mut self.classes),
            7 => change_word(random, &mut self.roots),
            8 | 9 => self.change_length(random),
            10 => swap_words(random, &mut self.nodes),
            11 => change_word(random, &mut self.plains),
            12 => self.change_plain(random),
            13 => self.change_roots_left_out(random),
            _ => *self = OwnTables::unread(&broken(&random_book(random), random)),
        }
    }

    fn change_header(&mut self, random: &mut Random) {
        let Header { half, states, phones, classes, nodes } = &mut self.header;
        let number = *random.pick(&[0, 1, 2, 3, 4]);
        let number = [half, states, phones, classes, nodes].into_iter().nth(number).expect("five numbers");
        *number = near(random, *number);
    }

    fn change_length(&mut self, random: &mut Random) {
        match random.below(4) {
            0 => change_length(random, &mut self.nodes),
            1 => change_length(random, &mut self.classes),
            2 => change_length(random, &mut self.roots),
            _ => change_length(random, &mut self.plains),
        }
    }

    /// Another plain phone, which may be a boundary phone, or none; also for silence, and beyond the phones.
    fn change_plain(&mut self, random: &mut Random) {
        let at = random.below(self.plains.len());
        self.plains[at] = random.below(self.header.phones as usize + 2) as u32;
    }

    /// One root left out or put in, or all those of a phone.
    fn change_roots_left_out(&mut self, random: &mut Random) {
        let at = random.below(self.roots.len());
        let first = at - at % self.header.states as usize;
        let end = (first + self.header.states as usize).min(self.roots.len());
        match random.below(3) {
            0 => self.roots[at] = NO_ROOT,
            1 => self.roots[at] = random.below(self.header.nodes as usize) as u32,
            _ => self.roots[first..end].fill(NO_ROOT),
        }
    }
}

/// A number near another one, near a limit, or any.
pub fn near(random: &mut Random, number: u32) -> u32 {
    let base = match random.below(8) {
        0..=4 => number,
        5 => *random.pick(&[0, 3, 6, 64, 255, 4096, 65535, 999_999]),
        6 => random.below(5) as u32,
        _ if random.percent(50) => return random.word() as u32,
        _ => return *random.pick(&[u32::MAX, 1 << 31, 1 << 16]),
    };
    base.wrapping_add(random.below(5) as u32).wrapping_sub(2)
}

fn change_word(random: &mut Random, words: &mut [u32]) {
    if !words.is_empty() {
        let at = random.below(words.len());
        words[at] = near(random, words[at]);
    }
}

/// A phone put in or taken out, within the phones or beyond them.
fn change_class(random: &mut Random, classes: &mut [u64]) {
    if !classes.is_empty() {
        let at = random.below(classes.len());
        classes[at] ^= 1 << random.below(64);
    }
}

fn swap_words(random: &mut Random, words: &mut [u32]) {
    if !words.is_empty() {
        words.swap(random.below(words.len()), random.below(words.len()));
    }
}

/// Shorter, or longer by words that are 0 or not.
pub fn change_length<Number: Copy + From<u8>>(random: &mut Random, words: &mut Vec<Number>) {
    match random.below(4) {
        0 => words.truncate(words.len().saturating_sub(1)),
        1 => words.truncate(random.below(words.len() + 1)),
        2 => words.extend((0..random.between(1, 11)).map(|_| Number::from(0))),
        _ => words.extend((0..random.between(1, 6)).map(|_| Number::from(random.below(2) as u8))),
    }
}
