//! The models of a phone sequence.

use super::tables::OwnTables;
use super::Case;
use crate::lending::Lent;
use crate::lengths::around;
use crate::outcome::{Outcome, Side};
use plain::random::Random;

pub struct Transcription {
    pub tables: OwnTables,
    pub phones: Vec<u32>,
    pub models: usize,
}

pub fn case(random: &mut Random) -> Box<dyn Case> {
    let mut tables = OwnTables::known(random);
    let phones = sequence(random, tables.header.phones);
    let models = around(random, phones.len(), tables.header.states as usize);
    if random.percent(25) {
        tables.change(random);
    }
    Box::new(Transcription { tables, phones, models })
}

/// Silence at both ends in most cases, and phones in range.
pub fn sequence(random: &mut Random, phones: u32) -> Vec<u32> {
    let mut sequence: Vec<u32> =
        (0..random.below(12)).map(|_| random.between(1, phones as usize) as u32).collect();
    if random.percent(85) {
        sequence.insert(0, 1);
    }
    if random.percent(85) {
        sequence.push(1);
    }
    if random.percent(8) && !sequence.is_empty() {
        let at = random.below(sequence.len());
        sequence[at] = *random.pick(&[0, phones + 1, 64, 65, u32::MAX]);
    }
    sequence
}

impl Case for Transcription {
    fn entry(&self) -> &'static str {
        "transcribe"
    }

    fn call(&self, side: Side) -> Outcome {
        let transcribe = if side == Side::Library { fulgwerz::transcribe } else { plain::transcribe };
        let mut lent = self.tables.lend();
        let mut phones = Lent::holding(&self.phones);
        let mut models = Lent::garbage(self.models);
        let answer = transcribe(self.tables.header, lent.for_reading(), phones.part(), models.part());
        Outcome::new(answer.fault, answer).with_tables(lent).with("phones", phones).with("models", models)
    }

    fn input(&self) -> String {
        format!("  {:?}\n  phones {:?}, room for {} models", self.tables, self.phones, self.models)
    }
}
