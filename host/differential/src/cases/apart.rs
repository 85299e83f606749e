//! Books whose leaf pairs have nothing in common, combined and built: nearly all meetings end at an empty column.

use super::building::{build_book_case_of, build_case_of};
use super::combining;
use super::reading::BookText;
use super::tables::OwnTables;
use super::Case;
use crate::outcome::{Outcome, Side};
use plain::books::random_books::random_apart;
use plain::random::Random;

/// A case of another kind, counted by a name of its own.
struct Apart {
    name: &'static str,
    case: Box<dyn Case>,
}

pub fn case(random: &mut Random) -> Box<dyn Case> {
    let book = random_apart(random);
    let tables = OwnTables::of(&book, random.below(3));
    let (name, case) = match random.below(3) {
        0 => ("combine apart", combining::case_of(random, tables)),
        1 => ("build apart", build_case_of(random, tables)),
        _ => {
            let book = BookText { text: book.text(), lent: tables.lengths() };
            ("build_book apart", build_book_case_of(random, book))
        }
    };
    Box::new(Apart { name, case })
}

impl Case for Apart {
    fn entry(&self) -> &'static str {
        self.name
    }

    fn others(&self) -> &'static [Side] {
        self.case.others()
    }

    fn call(&self, side: Side) -> Outcome {
        self.case.call(side)
    }

    fn input(&self) -> String {
        self.case.input()
    }
}
