//! Plain forms read again: accepted into the tables that had the book, written again as they stand, and with the
//! models that the book had, after as many questions. The library goes the way; it should bring back the plain form and
//! the book's own models and questions.

use super::tables::OwnTables;
use super::transcription::sequence;
use super::Case;
use crate::lending::Lent;
use crate::lent_tables::LentTables;
use crate::outcome::{Outcome, Side};
use fulgwerz::{CountAnswer, ReadAnswer, TranscriptAnswer};
use plain::books::random_books::random_book;
use plain::books::Book;
use plain::limits::MOST_STATES;
use plain::random::Random;

pub struct PlainForm {
    tables: OwnTables,
    /// The length of the text that the tables were read from.
    own_text: usize,
    phones: Vec<u32>,
}

pub fn case(random: &mut Random) -> Box<dyn Case> {
    let book = random_book(random);
    let beyond = random.below(8);
    let phones = sequence(random, book.phones);
    Box::new(PlainForm::new(&book, beyond, phones))
}

impl PlainForm {
    pub fn new(book: &Book, beyond: usize, phones: Vec<u32>) -> PlainForm {
        PlainForm { tables: OwnTables::of(book, beyond), own_text: book.text().len(), phones }
    }
}

/// What is lent for the whole way.
struct Space {
    text: Lent<u8>,
    tables: LentTables,
    text_again: Lent<u8>,
    models: Lent<u32>,
    models_again: Lent<u32>,
}

type Answers = (CountAnswer, ReadAnswer, CountAnswer, TranscriptAnswer, TranscriptAnswer);

impl PlainForm {
    fn lend(&self) -> Space {
        let models = self.phones.len() * MOST_STATES as usize;
        Space {
            text: Lent::garbage(self.own_text),
            tables: LentTables::garbage(self.tables.lengths()),
            text_again: Lent::garbage(self.own_text),
            models: Lent::garbage(models),
            models_again: Lent::garbage(models),
        }
    }

    fn by_the_library(&self, space: &mut Space) -> Answers {
        let OwnTables { header, .. } = self.tables;
        let written = fulgwerz::write_book(header, self.tables.tables(), space.text.part());
        let text = &space.text.part()[..written.count];
        let read = fulgwerz::read(text, space.tables.for_filling());
        let tables = space.tables.for_reading();
        let again = fulgwerz::write_book(read.header, tables, space.text_again.part());
        let given = fulgwerz::transcribe(header, self.tables.tables(), &self.phones, space.models.part());
        let given_again = fulgwerz::transcribe(read.header, tables, &self.phones, space.models_again.part());
        (written, read, again, given, given_again)
    }

    fn as_expected(&self, space: &mut Space) -> Answers {
        let OwnTables { header, .. } = self.tables;
        let written = plain::write_book(header, self.tables.tables(), space.text.part());
        let text = space.text.part();
        space.text_again.part().copy_from_slice(text);
        let read = plain::read(&text[..written.count], space.tables.for_filling());
        let given = plain::transcribe(header, self.tables.tables(), &self.phones, space.models.part());
        space.models_again.part().copy_from_slice(space.models.part());
        (written, read, written, given, given)
    }
}

impl Case for PlainForm {
    fn entry(&self) -> &'static str {
        "plain forms"
    }

    fn call(&self, side: Side) -> Outcome {
        let mut space = self.lend();
        let answers = match side {
            Side::Library => self.by_the_library(&mut space),
            _ => self.as_expected(&mut space),
        };
        Outcome::new(answers.1.fault, answers)
            .with("text", space.text)
            .with_tables(space.tables)
            .with("text written again", space.text_again)
            .with("models", space.models)
            .with("models by the plain form", space.models_again)
    }

    fn input(&self) -> String {
        format!("  {:?}\n  phones {:?}", self.tables, self.phones)
    }
}
