//! The faults of word books and joins in words.

use crate::failures::Failure;
use crate::faults::{self, CROWD, MISPRINT, ORDER, RANGE, TANGLE};
use crate::inputs::{Text, LINE};

const FORM: &str = "every line of a word book has the letter V and three numbers, word, place and \
    phone: they end in columns 7, 13 and 19 and have no leading zeros, the rest is blank";
const RANGES: &str = "words are 1 to 9999, places in a word 1 to 64, phones 1 to 64";
const FIRST: &str = "a word book begins with word 1, place 1";

const JOINED_CROWD: &str = "the joined network needs more than 65535 states, the most that can be joined; fewer or \
    shorter words, or a network of a smaller half-width, help most";
const JOINED_TANGLE: &str = "the joined network needs more than 999999 arcs, the most that can be joined; fewer \
    words, or a network of a smaller half-width, help most";

/// Says what is wrong with a word book, and shows the line that is meant; line 0 means none.
pub fn explain(text: &Text, fault: u32, line: usize) -> Failure {
    let meaning = match fault {
        MISPRINT => Some(FORM.to_string()),
        RANGE => Some(RANGES.to_string()),
        ORDER => Some(what_comes(&text.bytes, line)),
        _ => None,
    };
    faults::explain_by(text, fault, line, meaning.as_deref())
}

/// Says why two texts, a network and a word book, are not joined.
pub fn explain_join(network: &str, words: &str, fault: u32) -> Failure {
    let both = Text { name: format!("{network} with {words}"), bytes: Vec::new() };
    let meaning = match fault {
        CROWD => Some(JOINED_CROWD),
        TANGLE => Some(JOINED_TANGLE),
        _ => None,
    };
    faults::explain_by(&both, fault, 0, meaning)
}

/// What should stand in this line, counted from 1, after the line before, which is in order.
fn what_comes(bytes: &[u8], line: usize) -> String {
    let Some((word, place)) = line.checked_sub(2).and_then(|before| word_and_place(bytes, before)) else {
        return FIRST.to_string();
    };
    let next_word = format!("word {}, place 1", word + 1);
    match place {
        64 => format!("after word {word}, place {place} comes {next_word}"),
        _ => format!("after word {word}, place {place} comes word {word}, place {}, or {next_word}", place + 1),
    }
}

/// The first two numbers of a line, by its place from 0.
fn word_and_place(bytes: &[u8], at: usize) -> Option<(u32, u32)> {
    let text = std::str::from_utf8(bytes.chunks(LINE).nth(at)?).ok()?;
    let mut numbers = text.strip_prefix('V')?.split_whitespace().map(str::parse);
    Some((numbers.next()?.ok()?, numbers.next()?.ok()?))
}

#[cfg(test)]
mod tests {
    use super::*;

    #[test]
    fn what_comes_next_is_told_in_words() {
        let text = b"V     1     1     3            \nV     1    64     3            \n";
        assert_eq!(what_comes(text, 1), FIRST);
        assert_eq!(what_comes(text, 2), "after word 1, place 1 comes word 1, place 2, or word 2, place 1");
        assert_eq!(what_comes(text, 3), "after word 1, place 64 comes word 2, place 1");
        assert_eq!(what_comes(text, 9), FIRST);
    }

    #[test]
    fn no_meaning_breaks_its_line() {
        for meaning in [FORM, RANGES, FIRST, JOINED_CROWD, JOINED_TANGLE] {
            assert!(!meaning.contains("  ") && !meaning.contains('\n'), "{meaning}");
        }
    }
}
