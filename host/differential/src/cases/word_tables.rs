//! Words as they are lent: as reading leaves them, and changed.

use super::foreign_tables::{change_length, near};
use fulgwerz::Words;
use plain::limits::{MOST_PLACES, MOST_WORDS, WORD};
use plain::random::Random;
use plain::word_books::WordBook;

#[derive(Clone, Debug)]
pub struct OwnWords {
    pub count: usize,
    pub table: Vec<u32>,
}

impl OwnWords {
    /// A word book's, with so many words beyond the used ones.
    pub fn of(book: &WordBook, beyond: usize) -> OwnWords {
        let mut table = book.table();
        table.resize(table.len() + beyond, 0);
        OwnWords { count: book.words.len(), table }
    }

    pub fn words(&self) -> Words<'_> {
        Words { count: self.count, table: &self.table }
    }

    /// Changes the count, a word or the length; what comes out is foreign in most cases.
    pub fn change(&mut self, random: &mut Random) {
        match random.below(9) {
            0 | 1 => self.change_count(random),
            2 => change_length(random, &mut self.table),
            3 => self.change_whole_records(random),
            4 => {
                let at = random.below(self.table.len());
                self.table[at] = near(random, self.table[at]);
            }
            _ => self.change_record(random),
        }
    }

    fn change_count(&mut self, random: &mut Random) {
        self.count = match random.below(4) {
            0 => *random.pick(&[0, 1, MOST_WORDS, MOST_WORDS + 1, 1 << 32, usize::MAX / WORD + 1, usize::MAX]),
            1 => near(random, self.count as u32) as usize,
            _ => (self.count + 1).saturating_sub(2 * random.below(2)),
        };
    }

    /// A record more, of zeros or not, or a record less; the count follows or not.
    fn change_whole_records(&mut self, random: &mut Random) {
        let length = if random.percent(50) { self.table.len() + WORD } else { self.table.len().saturating_sub(WORD) };
        self.table.resize(length, random.below(2) as u32);
        if random.percent(50) {
            self.count = length / WORD;
        }
    }

    /// A length or a phone of one record: just beside its range, or with a gap or something after the last phone.
    fn change_record(&mut self, random: &mut Random) {
        let records = self.table.len() / WORD;
        if records == 0 {
            return;
        }
        let record = &mut self.table[WORD * random.below(records)..][..WORD];
        let length = (record[0] as usize).min(MOST_PLACES);
        match random.below(6) {
            0 => record[0] = *random.pick(&[0, 65, 64, u32::MAX]),
            1 => record[0] = record[0].wrapping_add(1).wrapping_sub(2 * random.below(2) as u32),
            2 => record[random.between(1, length.max(1))] = *random.pick(&[0, 65, 64, u32::MAX]),
            3 => record[(length + 1).min(MOST_PLACES)] = random.below(3) as u32,
            4 => record[MOST_PLACES] = random.below(3) as u32,
            _ => record[random.between(1, length.max(1))] = random.between(1, 64) as u32,
        }
    }
}
