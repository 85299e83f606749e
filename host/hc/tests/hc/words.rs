//! hc words, and the messages of every fault that a word book can have.

use crate::running::{hc, run, run_on, Answer, Folder};
use crate::texts::{line, lines, with_line, BOOK, NETWORK};

const GUIDE: &str = include_str!("../../../../docs/word-books.md");

/// The guide's word book.
pub const ORDERS: &str = "V 1 1 6 / V 1 2 7 / V 1 3 3 / V 2 1 4 / V 2 2 2 / V 2 3 10 / V 3 1 12 / V 3 2 14 / V 3 3 5 / \
    V 3 4 13 / V 4 1 11 / V 4 2 5 / V 5 1 4 / V 5 2 7 / V 5 3 5 / V 6 1 9 / V 6 2 11 / V 6 3 8 / V 7 1 7 / V 7 2 10";

/// Whether the guide shows this as a block of its own, without the blanks at the ends of lines.
pub fn in_the_guide(text: &[u8]) -> bool {
    let shown: String = String::from_utf8_lossy(text).lines().map(|line| format!("{}\n", line.trim_end())).collect();
    GUIDE.contains(&format!("```\n{shown}```\n"))
}

/// The word book in a file of the guide's name.
fn answer(test: &str, words: &[u8]) -> Answer {
    let folder = Folder::new(test);
    folder.holding("orders.words", words);
    hc().current_dir(folder.path("")).args(["words", "orders.words"]).output().unwrap().into()
}

#[test]
fn the_guide_s_word_book_is_accepted() {
    let accepted = answer("words-guide", &lines(ORDERS));
    accepted.gives("orders.words: accepted: words 7, lines 20, longest word 3 (4 phones), highest phone 14\n");
    assert!(in_the_guide(&accepted.stdout));
    let alike = answer("words-alike", &lines(&format!("{ORDERS} / V 8 1 7 / V 8 2 10")));
    assert_eq!((alike.stderr.as_str(), alike.code), ("", Some(0)));
    assert!(in_the_guide(&alike.stdout));
}

#[test]
fn from_standard_input() {
    let accepted = "standard input: accepted: words 2, lines 2, longest word 1 (1 phone), highest phone 64";
    run_on(&["words", "-"], &lines("V 1 1 64 / V 2 1 2")).gives(format!("{accepted}\n"));
    run_on(&["words", "-"], &lines("V 1 1 64 / V 2 1 64")).gives(format!("{accepted}, words like an earlier one 1\n"));
    run(&["words", "/nowhere/words"]).fails_with("hc: /nowhere/words: No such file or directory");
}

/// No table that hc lends has too few words: 51 is never the answer.
#[test]
fn the_longest_word_book() {
    let mut text = String::new();
    (1..=9999).for_each(|word| (1..=64).for_each(|place| text += &line('V', &[word, place, place])));
    let accepted = "standard input: accepted: words 9999, lines 639936, longest word 1 (64 phones), highest phone 64, \
        words like an earlier one 9998\n";
    run_on(&["words", "-"], text.as_bytes()).gives(accepted);
    text += &line('V', &[10000, 1, 1]);
    run_on(&["words", "-"], text.as_bytes()).fails_with("hc: standard input: fault 13, range, at line 639937: ");
}

#[test]
fn as_many_words_as_lines() {
    let text: String = (1..=9999).map(|word| line('V', &[word, 1, 2])).collect();
    let accepted = "standard input: accepted: words 9999, lines 9999, longest word 1 (1 phone), highest phone 2, words \
        like an earlier one 9998\n";
    run_on(&["words", "-"], text.as_bytes()).gives(accepted);
}

/// The guide's word book with one line changed is refused at that line, as the guide shows it.
#[track_caller]
fn refused_in_the_guide(test: &str, number: usize, line: &str, message: &str) {
    let refused = answer(test, &with_line(&lines(ORDERS), number, line));
    refused.fails(&format!("hc: orders.words: {message}\n  {line:31}\n"));
    assert!(in_the_guide(refused.stderr.as_bytes()), "{}", refused.stderr);
}

#[test]
fn ragged() {
    let text = lines(ORDERS);
    let cut = [&text[..32], b"V     1     2     7\n", &text[64..]].concat();
    let refused = answer("words-ragged", &cut);
    refused.fails_with("hc: orders.words: fault 11, ragged: ");
    assert!(in_the_guide(refused.stderr.as_bytes()), "{}", refused.stderr);
    run_on(&["words", "-"], b"").fails(
        "hc: standard input: fault 11, ragged: every line must have 31 characters and then a line end\n  \
         the text is empty\n",
    );
}

const FORM: &str = "every line of a word book has the letter V and three numbers, word, place and phone: they end in \
    columns 7, 13 and 19 and have no leading zeros, the rest is blank";

#[test]
fn misprint() {
    let message = format!("fault 12, misprint, at line 2: {FORM}");
    refused_in_the_guide("words-misprint", 2, "V     1     2    07", &message);
    for other in [BOOK, NETWORK] {
        let message = format!("hc: standard input: fault 12, misprint, at line 1: {FORM}\n");
        run_on(&["words", "-"], other).fails_with(&message);
    }
}

#[test]
fn range() {
    let message = "fault 13, range, at line 2: words are 1 to 9999, places in a word 1 to 64, phones 1 to 64";
    refused_in_the_guide("words-range", 2, "V     1     2    65", message);
}

#[test]
fn order() {
    let message = "fault 14, order, at line 6: after word 2, place 2 comes word 2, place 3, or word 3, place 1";
    refused_in_the_guide("words-order", 6, "V     2     4    10", message);
    let refused = |text: &str, message: &str| {
        run_on(&["words", "-"], &lines(text)).fails_with(&format!("hc: standard input: fault 14, order, {message}\n"));
    };
    refused("V 1 2 2", "at line 1: a word book begins with word 1, place 1");
    refused("V 2 1 2", "at line 1: a word book begins with word 1, place 1");
    refused("V 1 1 2 / V 1 1 2", "at line 2: after word 1, place 1 comes word 1, place 2, or word 2, place 1");
}
