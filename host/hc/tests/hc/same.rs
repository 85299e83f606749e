//! hc same.

use crate::plain::{PLAIN, SPELLED};
use crate::running::{run, run_on, Answer, Folder};
use crate::texts::{lines, longest_book, with_line, BOOK};
use std::ffi::OsStr;

/// Compares a book in a file, `one`, with another in the file `other`; the names in the answer are those.
fn compare(test: &str, one: &[u8], other: &[u8]) -> Answer {
    let folder = Folder::new(test);
    folder.holding("one", one);
    folder.holding("other", other);
    crate::running::hc().current_dir(folder.path("")).args(["same", "one", "other"]).output().unwrap().into()
}

/// Not the same, for this reason, and shown so in each of the books.
#[track_caller]
pub fn differ(test: &str, one: &str, other: &str, what: &str, shown: [&str; 2]) {
    let [here, there] = shown;
    compare(test, &lines(one), &lines(other))
        .denies(&format!("one and other: not the same book\n  {what}\n  one{here}\n  other{there}\n"));
}

#[test]
fn two_spellings() {
    compare("same-spellings", &lines(SPELLED), &lines(PLAIN)).gives("one and other: the same book\n");
    compare("same-spellings", &lines(PLAIN), &lines(SPELLED)).gives("one and other: the same book\n");
    compare("same-spellings", BOOK, BOOK).gives("one and other: the same book\n");
}

#[test]
fn one_from_standard_input() {
    let folder = Folder::new("same-stdin");
    let book = folder.holding("book", &lines(SPELLED));
    let name = book.display();
    run_on(&[OsStr::new("same"), book.as_os_str(), OsStr::new("-")], &lines(PLAIN))
        .gives(format!("{name} and standard input: the same book\n"));
    run_on(&[OsStr::new("same"), OsStr::new("-"), book.as_os_str()], &lines(PLAIN))
        .gives(format!("standard input and {name}: the same book\n"));
    run_on(&["same", "-", "-"], BOOK).decides_nothing("hc: only one BOOK can be standard input\nusage: hc same ");
}

#[test]
fn half_width() {
    let wider = PLAIN.replace("H 1 1 2", "H 2 1 2");
    differ("same-half", SPELLED, &wider, "the half-widths differ", [": half-width 1", ": half-width 2"]);
}

/// Four trees in a row, for two phones and for four.
#[test]
fn states_and_phones() {
    let two = "H 0 2 2 0 4 / L 0 1 / L 1 2 / L 2 3 / L 3 4 / R 1 1 0 / R 1 2 1 / R 2 1 2 / R 2 2 3";
    let four = "H 0 1 4 0 4 / L 0 1 / L 1 2 / L 2 3 / L 3 4 / R 1 1 0 / R 2 1 1 / R 3 1 2 / R 4 1 3";
    differ("same-states", two, four, "the states of a phone differ", [": states 2", ": states 1"]);
    let three = "H 0 1 3 0 3 / L 0 1 / L 1 2 / L 2 3 / R 1 1 0 / R 2 1 1 / R 3 1 2";
    differ("same-phones", three, four, "the phones differ", [": phones 3", ": phones 4"]);
}

#[test]
fn another_model() {
    let other = PLAIN.replace("L 4 22", "L 4 23").replace("L 5 21", "L 5 31");
    differ("same-model", SPELLED, &other, "the trees of phone 2, state 1 differ: another model", [
        ", node 5: a leaf with model 22",
        ", node 4: a leaf with model 23",
    ]);
}

#[test]
fn another_position() {
    let other = PLAIN.replace("N 3 1 2", "N 3 1 1");
    differ("same-position", SPELLED, &other, "the trees of phone 2, state 1 differ: another position", [
        ", node 2: is the phone at position 2 phone 2?",
        ", node 3: is the phone at position 1 phone 2?",
    ]);
}

#[test]
fn another_set_of_phones() {
    let what = "the trees of phone 2, state 1 differ: another set of phones";
    let both = PLAIN.replace("Q 1 2", "Q 1 1 / Q 1 2");
    differ("same-set", SPELLED, &both, what, [
        ", node 1: is the phone at position 0 phone 2?",
        ", node 1: is the phone at position 0 one of 1 2?",
    ]);
    let none = PLAIN.replace("Q 1 2 / ", "");
    differ("same-set", &none, SPELLED, what, [
        ", node 1: is the phone at position 0 in a class without members?",
        ", node 1: is the phone at position 0 phone 2?",
    ]);
}

#[test]
fn a_question_against_a_leaf() {
    let leaf = "H 1 1 2 1 4 / Q 1 2 / L 0 10 / N 1 1 0 2 3 / L 2 20 / L 3 21 / R 1 1 0 / R 2 1 1";
    differ("same-leaf", SPELLED, leaf, "the trees of phone 2, state 1 differ: a question against a leaf", [
        ", node 2: is the phone at position 2 phone 2?",
        ", node 3: a leaf with model 21",
    ]);
    differ("same-leaf", leaf, SPELLED, "the trees of phone 2, state 1 differ: a leaf against a question", [
        ", node 3: a leaf with model 21",
        ", node 2: is the phone at position 2 phone 2?",
    ]);
}

/// Trees are compared by phone and state, and from the root down, yes before no.
#[test]
fn the_first_of_several() {
    let trees = "H 0 2 2 1 8 / Q 1 1 / N 0 1 0 4 5 / L 1 2 / N 2 1 0 6 7 / L 3 4 / L 4 5 / L 5 6 / L 6 7 / L 7 8 / \
        R 1 1 1 / R 1 2 0 / R 2 1 3 / R 2 2 2";
    let other = trees.replace("L 4 5", "L 4 50").replace("L 5 6", "L 5 60").replace("L 3 4", "L 3 40");
    differ("same-first", trees, &other, "the trees of phone 1, state 2 differ: another model", [
        ", node 4: a leaf with model 5",
        ", node 4: a leaf with model 50",
    ]);
}

/// Its last tree has 1952 questions, one below the other; the leaf farthest down differs.
#[test]
fn the_longest_book() {
    let book = longest_book(3);
    let place = book.len() / 32 - 192;
    let other = with_line(&book, place, "L  4095  1002");
    compare("same-longest", &book, &book).gives("one and other: the same book\n");
    compare("same-longest", &book, &other).denies(
        "one and other: not the same book\n  the trees of phone 64, state 3 differ: another model\n  \
         one, node 4095: a leaf with model 1001\n  other, node 4095: a leaf with model 1002\n",
    );
}

#[test]
fn a_refused_book_is_no_answer() {
    let refused = with_line(BOOK, 2, "q     1     1");
    compare("same-refused", &refused, BOOK).decides_nothing("hc: one: fault 12, misprint, at line 2: ");
    compare("same-refused", BOOK, &refused).decides_nothing("hc: other: fault 12, misprint, at line 2: ");
    run(&["same", "/nowhere/one", "/nowhere/other"]).decides_nothing("hc: /nowhere/one: No such file or directory");
}

const GUIDE: &str = include_str!("../../../../docs/tree-books.md");
const OURS: &str = "H 1 1 2 3 6 / Q 1 2 / Q 2 1 / Q 3 1 / N 0 2 0 1 2 / N 1 3 2 3 4 / L 2 22 / L 3 20 / L 4 21 / L 5 10 / \
    R 1 1 5 / R 2 1 0";
const THEIRS: &str =
    "H 1 1 2 1 6 / Q 1 1 / L 0 10 / N 1 1 0 3 2 / L 2 22 / N 3 1 2 5 4 / L 4 21 / L 5 20 / R 1 1 0 / R 2 1 1";

/// Whether the guide shows this as a block of its own, without the blanks at the ends of lines.
pub fn in_the_guide(text: &[u8]) -> bool {
    let shown: String = String::from_utf8_lossy(text).lines().map(|line| format!("{}\n", line.trim_end())).collect();
    GUIDE.contains(&format!("```\n{shown}```\n"))
}

/// A question stands on the yes side here, so numbers level by level would be others.
#[test]
fn the_books_of_the_guide() {
    let folder = Folder::new("same-guide");
    let answer = |arguments: &[&str]| -> Answer {
        crate::running::hc().current_dir(folder.path("")).args(arguments).output().unwrap().into()
    };
    folder.holding("ours.book", &lines(OURS));
    folder.holding("theirs.book", &lines(THEIRS));
    answer(&["same", "ours.book", "theirs.book"]).gives("ours.book and theirs.book: the same book\n");
    assert!(in_the_guide(&answer(&["plain", "ours.book"]).stdout));
    assert!(in_the_guide(&answer(&["plain", "theirs.book"]).stdout));
    folder.holding("theirs.book", &lines(&THEIRS.replace("L 5 20", "L 5 23")));
    let other = answer(&["same", "ours.book", "theirs.book"]);
    assert!(other.code == Some(1) && in_the_guide(&other.stdout));
}
