//! The faults in words.

use crate::chained;
use crate::failures::Failure;
use crate::inputs::{Text, LINE};
use crate::ragged;
use crate::showing;

/// The faults that are treated apart.
const RAGGED: u32 = 11;
pub const MISPRINT: u32 = 12;
pub const RANGE: u32 = 13;
pub const ORDER: u32 = 14;
pub const NARROW: u32 = 20;
const CHAINED: u32 = 21;
pub const CHOICES: u32 = 30;
pub const CROWD: u32 = 31;
pub const TANGLE: u32 = 32;

/// A fault's number, the word for it, document 01's where it has one, and what it means to those who wrote the text.
struct Fault(u32, &'static str, &'static str);

/// Every fault that the library gives. (22 is the build program's alone, for a book longer than it takes.)
const FAULTS: [Fault; 17] = [
    Fault(11, "ragged", "every line must have 31 characters and then a line end"),
    Fault(
        12,
        "misprint",
        "the letter is none that this text has, or a field is not written as it should be: \
        a number ends in column 7, 13, 19, 25 or 31 and has no leading zeros, an unused field is blank",
    ),
    Fault(13, "range", "a number is too small or too large, by the rules or by the counts in line 1"),
    Fault(14, "order", "the line stands in the wrong place, or its numbers are not those that come next"),
    Fault(15, "backward", "a child's number must be greater than its node's"),
    Fault(16, "orphan", "this node is named twice or never; each must be named exactly once, as a child or as a root"),
    Fault(17, "count", "the lines end too early, or go on after the last that belongs to the text"),
    Fault(18, "foreign", "the library was lent tables that reading never leaves: a mistake in hc, not in the text"),
    Fault(20, "narrow", "the library was lent too short a table: a mistake in hc, not in the text"),
    Fault(21, "chained", "a phone takes the trees of a phone that is a boundary phone itself"),
    Fault(
        30,
        "choices",
        "the leaves of the trees fit together in more than 65535 ways, the most that can be \
        built; ask fewer different questions in the trees of one phone",
    ),
    Fault(
        31,
        "crowd",
        "the network needs more than 65535 metastates, the most that can be built; a smaller \
        half-width or fewer phones help most",
    ),
    Fault(
        32,
        "tangle",
        "the network needs more than 999999 arcs, the most that can be built; a smaller \
        half-width or fewer phones help most",
    ),
    Fault(33, "short", "the library was lent too little space for its answer: a mistake in hc, not in the text"),
    Fault(
        41,
        "utterance",
        "the phones must begin and end with silence, which is phone 1, be phones of the book, \
        and be no more than 1000000",
    ),
    Fault(42, "state", "the network has no such state"),
    Fault(51, "vocabulary", "the library was lent a table for too few words: a mistake in hc, not in the text"),
];

const UNKNOWN: Fault = Fault(0, "unknown", "the library gave a number that hc does not know");

/// Says what is wrong with a text, and shows the line that is meant; line 0 means none.
pub fn explain(text: &Text, fault: u32, line: usize) -> Failure {
    let phones = if fault == CHAINED { chained::describe(&text.bytes, line) } else { None };
    explain_by(text, fault, line, phones.as_deref())
}

/// The same, with words that fit better than those for all texts, if there are such.
pub fn explain_by(text: &Text, fault: u32, line: usize, better: Option<&str>) -> Failure {
    let Fault(_, word, meaning) = FAULTS.iter().find(|known| known.0 == fault).unwrap_or(&UNKNOWN);
    let place = if line == 0 { String::new() } else { format!(", at line {line}") };
    let meaning = better.unwrap_or(meaning);
    let failure = Failure::because(format!("{}: fault {fault}, {word}{place}: {meaning}", text.name));
    if fault == RAGGED {
        failure.adding(&ragged::describe(&text.bytes))
    } else if line > 0 {
        failure.adding(&show_line(&text.bytes, line))
    } else {
        failure
    }
}

/// The line with this number, counted from 1, or that it is one past the last.
fn show_line(bytes: &[u8], line: usize) -> String {
    match bytes.chunks(LINE).nth(line - 1) {
        Some(bytes) => showing::line(bytes),
        None => "(one past the last line: the text ends too early)".to_string(),
    }
}

#[cfg(test)]
mod tests {
    use super::*;

    const DOCUMENT: &str = include_str!("../../../docs/document-01.md");
    const LATER: &str = include_str!("../../../docs/document-02.md");
    const GUIDES: &str =
        concat!(include_str!("../../../docs/tree-books.md"), include_str!("../../../docs/word-books.md"));
    const HEADER: &str = include_str!("../../../include/fulgwerz.h");

    /// The rows of document 01's table that have a fault's number and word, but 22.
    fn documented() -> Vec<(u32, &'static str)> {
        let rows = DOCUMENT.lines().filter_map(|line| {
            let mut cells = line.split('|').map(str::trim);
            let number = cells.nth(1)?.parse().ok()?;
            Some((number, cells.next()?))
        });
        rows.filter(|row| row.0 != 22).collect()
    }

    /// Document 02 gives its faults a number and no word.
    const GIVEN_LATER: [(u32, &str); 2] = [(CHAINED, "Number 21 refuses "), (51, "and 51, with line 0, refuses ")];

    #[test]
    fn every_fault_has_the_word_of_document_01_or_the_number_of_document_02() {
        let words: Vec<(u32, &str)> = FAULTS.iter().map(|fault| (fault.0, fault.1)).collect();
        let is_later = |word: &(u32, &str)| GIVEN_LATER.iter().any(|later| later.0 == word.0);
        let (later, first): (Vec<_>, Vec<_>) = words.into_iter().partition(is_later);
        assert_eq!(first, documented());
        assert_eq!(later.len(), GIVEN_LATER.len());
        for (number, sentence) in GIVEN_LATER {
            assert!(LATER.contains(sentence), "{number}");
        }
    }

    #[test]
    fn the_guides_have_a_section_for_each() {
        for Fault(number, word, _) in FAULTS {
            assert!(GUIDES.contains(&format!("\n### {number} {word}\n")), "{number} {word}");
        }
    }

    #[test]
    fn the_header_has_the_same_faults() {
        for Fault(number, word, _) in FAULTS {
            let constant = format!("FULGWERZ_{} = {number}", word.to_uppercase());
            assert!(HEADER.contains(&constant), "{constant}");
        }
    }

    #[test]
    fn no_meaning_is_given_twice_and_none_breaks_its_line() {
        for (place, fault) in FAULTS.iter().enumerate() {
            assert!(!fault.2.contains("  ") && !fault.2.contains('\n'), "{}", fault.2);
            assert!(FAULTS[..place].iter().all(|other| other.2 != fault.2), "{}", fault.2);
        }
    }
}
