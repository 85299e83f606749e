//! Two books at a time: other spellings of a book give the same bytes, other books give other bytes.
//! The library writes both; what it should find is what was done to the book.

use super::tables::OwnTables;
use super::Case;
use crate::lending::Lent;
use crate::outcome::{Outcome, Side};
use plain::books::changes::changed;
use plain::books::random_books::random_book;
use plain::books::respelling::respelled;
use plain::books::Book;
use plain::random::Random;

struct Spellings {
    one: OwnTables,
    other: OwnTables,
    same: bool,
}

pub fn case(random: &mut Random) -> Box<dyn Case> {
    let book = random_book(random);
    match random.percent(50) {
        true => of_one_book(&book, random),
        false => of_two_books(&book, random),
    }
}

/// A book and another spelling of it.
pub fn of_one_book(book: &Book, random: &mut Random) -> Box<dyn Case> {
    let other = respelled(book, random);
    Box::new(Spellings { one: OwnTables::of(book, 0), other: OwnTables::of(&other, 0), same: true })
}

/// A book and one that differs in a single thing, sometimes in another spelling.
pub fn of_two_books(book: &Book, random: &mut Random) -> Box<dyn Case> {
    let mut other = changed(book, random);
    if random.percent(50) {
        other = respelled(&other, random);
    }
    Box::new(Spellings { one: OwnTables::of(book, 0), other: OwnTables::of(&other, 0), same: false })
}

impl Case for Spellings {
    fn entry(&self) -> &'static str {
        "spellings"
    }

    fn call(&self, side: Side) -> Outcome {
        let write_book = if side == Side::Library { fulgwerz::write_book } else { plain::write_book };
        let mut texts = [&self.one, &self.other].map(|tables| Lent::garbage(tables.plain_form().len()));
        let [one, other] = &mut texts;
        let answers = (
            write_book(self.one.header, self.one.tables(), one.part()),
            write_book(self.other.header, self.other.tables(), other.part()),
        );
        let same = if side == Side::Library { one.part() == other.part() } else { self.same };
        let [one, other] = texts;
        Outcome::new(answers.0.fault, (answers, same)).with("one text", one).with("the other text", other)
    }

    fn input(&self) -> String {
        let expected = if self.same { "the same book" } else { "two books" };
        format!("  {expected}\n  {:?}\n  {:?}", self.one, self.other)
    }
}
