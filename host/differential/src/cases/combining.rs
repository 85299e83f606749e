//! The valid combinations of leaves.

use super::tables::OwnTables;
use super::Case;
use crate::lending::Lent;
use crate::lengths::around;
use crate::outcome::{Outcome, Side};
use plain::limits::COMBINATION;
use plain::random::Random;

pub struct Combining {
    pub tables: OwnTables,
    pub words: usize,
}

pub fn case(random: &mut Random) -> Box<dyn Case> {
    let tables = OwnTables::known(random);
    case_of(random, tables)
}

/// From these tables, or from them with a change.
pub fn case_of(random: &mut Random, mut tables: OwnTables) -> Box<dyn Case> {
    let mut space = vec![0; COMBINATION * 1000];
    let need = plain::fast::combine(tables.header, tables.tables(), &mut space).count;
    let words = around(random, need, COMBINATION);
    if random.percent(25) {
        tables.change(random);
    }
    Box::new(Combining { tables, words })
}

impl Case for Combining {
    fn entry(&self) -> &'static str {
        "combine"
    }

    fn others(&self) -> &'static [Side] {
        &[Side::Plain, Side::Fast]
    }

    fn call(&self, side: Side) -> Outcome {
        let combine = match side {
            Side::Library => fulgwerz::combine,
            Side::Plain => plain::combine,
            Side::Fast => plain::fast::combine,
        };
        let mut lent = self.tables.lend();
        let mut space = Lent::garbage(self.words);
        let answer = combine(self.tables.header, lent.for_reading(), space.part());
        Outcome::new(answer.fault, answer).with_tables(lent).with("combinations", space)
    }

    fn input(&self) -> String {
        format!("  {:?}\n  words lent for combinations: {}", self.tables, self.words)
    }
}
