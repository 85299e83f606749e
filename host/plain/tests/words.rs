//! Word books (document 02, P4): answers worked out by hand from the documents.

use plain::books::text::lines;
use plain::random::Random;
use plain::word_books::random_words::random_words;
use plain::word_books::recipes::longest;
use plain::word_books::WordBook;

/// Fault, line, count, and what is left in a table of so many 32-bit words.
fn read(book: &str, lent: usize) -> (u32, usize, usize, Vec<u32>) {
    let mut table = vec![7; lent];
    let answer = plain::read_words(&lines(book), &mut table);
    (answer.fault, answer.line, answer.count, table)
}

#[track_caller]
fn is_refused(book: &str, fault: u32, line: usize) {
    assert_eq!(read(book, 65 * 9 + 3), (fault, line, 0, vec![0; 65 * 9 + 3]), "{book}");
}

/// The words of a table, with 0 to 65 words each, and 0 after them.
fn table(words: &[&[u32]], lent: usize) -> Vec<u32> {
    let mut table: Vec<u32> = Vec::new();
    for (place, phones) in words.iter().enumerate() {
        table.push(phones.len() as u32);
        table.extend(*phones);
        table.resize(65 * (place + 1), 0);
    }
    table.resize(lent, 0);
    table
}

#[test]
fn the_table_of_a_book() {
    assert_eq!(read("V 1 1 2", 65), (0, 0, 1, table(&[&[2]], 65)));
    let two = "V 1 1 2 / V 2 1 2 / V 2 2 2";
    assert_eq!(read(two, 130), (0, 0, 2, table(&[&[2], &[2, 2]], 130)));
    assert_eq!(read(two, 200), (0, 0, 2, table(&[&[2], &[2, 2]], 200)));
}

/// Silence inside a word, words that sound alike, the highest phone.
#[test]
fn phones_are_compared_with_nothing() {
    let words = "V 1 1 2 / V 1 2 1 / V 1 3 64 / V 2 1 1 / V 3 1 1";
    assert_eq!(read(words, 195), (0, 0, 3, table(&[&[2, 1, 64], &[1], &[1]], 195)));
}

#[test]
fn ragged_over_the_whole_text() {
    let judge = |text: &[u8]| {
        let mut table = vec![7; 65];
        let answer = plain::read_words(text, &mut table);
        (answer.fault, answer.line, answer.count, table)
    };
    let ragged = (11, 0, 0, vec![0; 65]);
    assert_eq!(judge(b""), ragged);
    let text = lines("V 1 1 2 / x");
    assert_eq!(judge(&text[..63]), ragged);
    assert_eq!(judge(&text[..31]), ragged);
    assert_eq!(judge(&[&text[..31], b" ", &text[32..]].concat()), ragged);
}

#[test]
fn misprints() {
    for line in ["v 1 1 2", "W 1 1 2", "H 1 1 2 1 4", "V 1 1", "V 1 1 2 0", "V 1 1 02", "V 1 x 2", "V", "V 0 0", "x"] {
        is_refused(line, 12, 1);
        is_refused(&format!("V 1 1 2 / {line}"), 12, 2);
    }
}

#[test]
fn ranges() {
    for line in ["V 0 1 2", "V 10000 1 2", "V 1 0 2", "V 1 65 2", "V 1 1 0", "V 1 1 65", "V 999999 999999 999999"] {
        is_refused(line, 13, 1);
        is_refused(&format!("V 1 1 2 / {line}"), 13, 2);
    }
}

#[test]
fn words_and_places_ascend_without_gaps() {
    for line in ["V 1 2 2", "V 2 1 2", "V 9999 1 2", "V 1 64 2"] {
        is_refused(line, 14, 1);
    }
    for line in ["V 1 1 2", "V 1 3 2", "V 2 2 2", "V 3 1 2"] {
        is_refused(&format!("V 1 1 2 / {line}"), 14, 2);
    }
    is_refused("V 1 1 2 / V 2 1 2 / V 1 2 2", 14, 3);
    is_refused("V 1 1 2 / V 1 2 2 / V 1 1 3", 14, 3);
}

/// 12, then 13, then 14, line by line.
#[test]
fn the_first_fault_of_the_first_line_is_named() {
    is_refused("V 0 7 02", 12, 1);
    is_refused("V 2 7 0", 13, 1);
    is_refused("V 1 1 2 / V 5 1 2 / x", 14, 2);
    is_refused("V 1 1 2 / V 5 1 65 / x", 13, 2);
}

/// After the place 64 comes the next word; 65 is out of range. So is word 10000 after 9999.
#[test]
fn the_longest_word_and_the_most_words() {
    let mut book = WordBook { words: vec![vec![3; 64]] };
    let text = |book: &WordBook, line: &str| [book.text(), lines(line)].concat();
    let judge = |text: &[u8]| {
        let mut table = vec![7; 65 * 9999];
        let answer = plain::read_words(text, &mut table);
        (answer.fault, answer.line, answer.count)
    };
    assert_eq!(judge(&book.text()), (0, 0, 1));
    assert_eq!(judge(&text(&book, "V 1 65 3")), (13, 65, 0));
    assert_eq!(judge(&text(&book, "V 2 1 3")), (0, 0, 2));
    book.words = vec![vec![3]; 9999];
    assert_eq!(judge(&book.text()), (0, 0, 9999));
    assert_eq!(judge(&text(&book, "V 10000 1 3")), (13, 10000, 0));
    assert_eq!(judge(&longest().text()), (0, 0, 9999));
}

/// Whole records of 65; after all lines.
#[test]
fn vocabulary() {
    let two = "V 1 1 2 / V 2 1 2";
    for lent in [0, 1, 65, 129] {
        assert_eq!(read(two, lent), (51, 0, 0, vec![0; lent]));
    }
    assert_eq!(read(two, 130).0, 0);
    assert_eq!(read("V 1 1 2", 64).0, 51);
    assert_eq!(read("V 1 1 2 / V 2 1 2 / V 4 1 2", 65), (14, 3, 0, vec![0; 65]));
    assert_eq!(read("V 1 1 2 / V 2 1 2 / x", 65), (12, 3, 0, vec![0; 65]));
}

#[test]
fn random_word_books_are_read_as_they_were_made() {
    let mut random = Random::new(1);
    for _ in 0..300 {
        let book = random_words(&mut random, 5);
        let mut left = vec![7; 65 * book.words.len() + 5];
        assert_eq!(plain::read_words(&book.text(), &mut left).count, book.words.len());
        let mut expected = book.table();
        expected.extend([0; 5]);
        assert_eq!(left, expected);
    }
}
