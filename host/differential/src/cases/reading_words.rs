//! Reading word books: as they are written, and damaged.

use super::Case;
use crate::damage::damage;
use crate::damage_words::damage_words;
use crate::lending::Lent;
use crate::lengths::{around, enough};
use crate::outcome::{Outcome, Side};
use plain::limits::{LINE, WORD};
use plain::random::Random;
use plain::word_books::random_words::random_words;

pub struct ReadingWords {
    pub text: Vec<u8>,
    pub words: usize,
}

pub fn case(random: &mut Random) -> Box<dyn Case> {
    let phones = *random.pick(&[1, 3, 12, 40, 64]);
    let book = random_words(random, phones);
    let mut text = book.text();
    let words = match random.percent(75) {
        true => enough(random, WORD * book.words.len()),
        false => around(random, book.words.len(), WORD),
    };
    match random.below(10) {
        0..=4 => damage_words(random, &mut text),
        5..=7 => damage(random, &mut text),
        _ => {}
    }
    Box::new(ReadingWords { text, words })
}

impl Case for ReadingWords {
    fn entry(&self) -> &'static str {
        "read_words"
    }

    fn call(&self, side: Side) -> Outcome {
        let read_words = if side == Side::Library { fulgwerz::read_words } else { plain::read_words };
        let mut text = Lent::holding(&self.text);
        let mut words = Lent::garbage(self.words);
        let answer = read_words(text.part(), words.part());
        Outcome::new(answer.fault, answer).with("text", text).with("words", words)
    }

    fn input(&self) -> String {
        let lines: Vec<String> = self.text.chunks(LINE).map(|line| format!("    {}", line.escape_ascii())).collect();
        format!("  words lent: {}\n  text:\n{}", self.words, lines.join("\n"))
    }
}
