//! Reading: books as they are written, and damaged ones.

use super::Case;
use crate::damage::damage;
use crate::lending::Lent;
use crate::lengths::around;
use crate::lent_tables::LentTables;
use crate::outcome::{Outcome, Side};
use plain::books::broken_boundaries::broken;
use plain::books::random_books::random_book;
use plain::random::Random;

/// A text, and how many words of nodes, classes, roots and plain phones are lent.
pub struct BookText {
    pub text: Vec<u8>,
    pub lent: [usize; 4],
}

impl BookText {
    /// A book as it is written; or one damaged, or against a rule about boundary phones, or both.
    pub fn new(random: &mut Random, damaged: bool) -> BookText {
        let mut book = random_book(random);
        let (breaks_rule, is_damaged) = match random.below(10) {
            _ if !damaged => (false, false),
            0 => (true, false),
            1 => (true, true),
            _ => (false, true),
        };
        if breaks_rule {
            book = broken(&book, random);
        }
        let mut lent = book.table_lengths();
        if random.percent(40) {
            lent = lent.map(|need| need + random.below(8));
        }
        if random.percent(8) {
            let table = random.below(4);
            lent[table] = around(random, lent[table], 1);
        }
        let mut text = book.text();
        if is_damaged {
            damage(random, &mut text);
        }
        BookText { text, lent }
    }

    pub fn input(&self) -> String {
        let lines: Vec<String> = self.text.chunks(32).map(|line| format!("    {}", line.escape_ascii())).collect();
        format!("  nodes, classes, roots, plains lent: {:?}\n  text:\n{}", self.lent, lines.join("\n"))
    }
}

pub struct Read(pub BookText);

pub fn case(random: &mut Random) -> Box<dyn Case> {
    let damaged = random.percent(85);
    Box::new(Read(BookText::new(random, damaged)))
}

impl Case for Read {
    fn entry(&self) -> &'static str {
        "read"
    }

    fn call(&self, side: Side) -> Outcome {
        let read = if side == Side::Library { fulgwerz::read } else { plain::read };
        let mut text = Lent::holding(&self.0.text);
        let mut lent = LentTables::garbage(self.0.lent);
        let answer = read(text.part(), lent.for_filling());
        Outcome::new(answer.fault, answer).with("text", text).with_tables(lent)
    }

    fn input(&self) -> String {
        self.0.input()
    }
}
