//! Writing books: the plain form of the book in lent tables.

use super::tables::OwnTables;
use super::Case;
use crate::lending::Lent;
use crate::lengths::around;
use crate::outcome::{Outcome, Side};
use plain::limits::LINE;
use plain::random::Random;

pub struct WritingBook {
    pub tables: OwnTables,
    pub text: usize,
}

pub fn case(random: &mut Random) -> Box<dyn Case> {
    let mut tables = OwnTables::known(random);
    let text = around(random, tables.plain_form().len() / LINE, LINE);
    if random.percent(35) {
        tables.change(random);
    }
    Box::new(WritingBook { tables, text })
}

impl Case for WritingBook {
    fn entry(&self) -> &'static str {
        "write_book"
    }

    fn others(&self) -> &'static [Side] {
        &[Side::Plain, Side::Fast]
    }

    fn call(&self, side: Side) -> Outcome {
        let write_book = match side {
            Side::Library => fulgwerz::write_book,
            Side::Plain => plain::write_book,
            Side::Fast => plain::fast::write_book,
        };
        let mut lent = self.tables.lend();
        let mut text = Lent::garbage(self.text);
        let answer = write_book(self.tables.header, lent.for_reading(), text.part());
        Outcome::new(answer.fault, answer).with_tables(lent).with("text", text)
    }

    fn input(&self) -> String {
        format!("  {:?}\n  bytes lent for text: {}", self.tables, self.text)
    }
}
