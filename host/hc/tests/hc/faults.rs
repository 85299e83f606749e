//! The message of every fault that a book can have; check and build give the same.

use crate::running::{run_on, Folder};
use crate::texts::{line, with_line, BOOK};

/// Both commands refuse the book with this message, and build writes nothing.
#[track_caller]
fn refused(book: &[u8], message: &str) {
    let message = format!("hc: standard input: {message}\n");
    run_on(&["check", "-"], book).fails(&message);
    run_on(&["build", "-"], book).fails(&message);
}

/// The example with one line changed is refused at that line, which is shown.
#[track_caller]
fn refused_at(number: usize, line: &str, message: &str) {
    refused(&with_line(BOOK, number, line), &format!("{message}\n  {line:31}"));
}

const RAGGED: &str = "fault 11, ragged: every line must have 31 characters and then a line end";
const MISPRINT: &str = "the letter is none that this text has, or a field is not written as it should be: \
    a number ends in column 7, 13, 19, 25 or 31 and has no leading zeros, an unused field is blank";
const RANGE: &str = "a number is too small or too large, by the rules or by the counts in line 1";
const ORDER: &str = "the line stands in the wrong place, or its numbers are not those that come next";
const COUNT: &str = "the lines end too early, or go on after the last that belongs to the text";

#[test]
fn ragged_for_an_empty_book() {
    refused(b"", &format!("{RAGGED}\n  the text is empty"));
}

#[test]
fn ragged_for_255_bytes() {
    let last = "R     2     1     1            ";
    refused(&BOOK[..255], &format!("{RAGGED}\n  line 8 has no line end after its 31 characters\n  {last}"));
}

#[test]
fn ragged_for_blanks_cut_off() {
    let cut = [&BOOK[..32], b"Q     1     1\n", &BOOK[64..]].concat();
    refused(&cut, &format!("{RAGGED}\n  line 2 has 13 characters before its end\n  Q     1     1"));
}

#[test]
fn ragged_for_two_line_ends() {
    let text = String::from_utf8(BOOK.to_vec()).unwrap().replace('\n', "\r\n");
    let first = "H     1     1     2     1     4\\r";
    refused(
        text.as_bytes(),
        &format!("{RAGGED}\n  line 1 ends in two characters, CR and LF, instead of one\n  {first}"),
    );
}

#[test]
fn misprint() {
    refused_at(2, "q     1     1", &format!("fault 12, misprint, at line 2: {MISPRINT}"));
    refused_at(3, "L     0   010", &format!("fault 12, misprint, at line 3: {MISPRINT}"));
    refused_at(8, "R     1     1", &format!("fault 12, misprint, at line 8: {MISPRINT}"));
    refused_at(5, "", &format!("fault 12, misprint, at line 5: {MISPRINT}"));
}

#[test]
fn unprintable_bytes_are_escaped() {
    let mut book = BOOK.to_vec();
    book[64..72].copy_from_slice(b"\0\t\r\n\\\x1b\x7f\xff");
    let shown = "\\x00\\t\\r\\n\\\\\\x1b\\x7f\\xff   10                  ";
    refused(&book, &format!("fault 12, misprint, at line 3: {MISPRINT}\n  {shown}"));
}

#[test]
fn range() {
    refused_at(1, "H     4     1     2     1     4", &format!("fault 13, range, at line 1: {RANGE}"));
    refused_at(2, "Q     2     1", &format!("fault 13, range, at line 2: {RANGE}"));
    refused_at(3, "L     0     0", &format!("fault 13, range, at line 3: {RANGE}"));
    refused_at(1, "H     1     1     2     1  4097", &format!("fault 13, range, at line 1: {RANGE}"));
}

#[test]
fn order() {
    refused_at(4, "N     2     1     0     3     3", &format!("fault 14, order, at line 4: {ORDER}"));
    refused_at(3, "R     1     1     0", &format!("fault 14, order, at line 3: {ORDER}"));
    refused_at(1, "R     1     1     0", &format!("fault 14, order, at line 1: {ORDER}"));
}

#[test]
fn backward() {
    refused_at(
        4,
        "N     1     1     0     1     3",
        "fault 15, backward, at line 4: a child's number must be greater than its node's",
    );
}

#[test]
fn orphan() {
    let book = with_line(BOOK, 4, "N     1     1     0     2     2");
    let meaning = "this node is named twice or never; each must be named exactly once, as a child or as a root";
    refused(&book, &format!("fault 16, orphan, at line 5: {meaning}\n  L     2    20                  "));
}

#[test]
fn count_for_an_early_end() {
    let message = format!("fault 17, count, at line 8: {COUNT}\n  (one past the last line: the text ends too early)");
    refused(&BOOK[..224], &message);
}

#[test]
fn count_for_going_on() {
    let book = [BOOK, line('R', &[2, 1, 1]).as_bytes()].concat();
    refused(&book, &format!("fault 17, count, at line 9: {COUNT}\n  R     2     1     1            "));
}

#[test]
fn the_name_of_the_book_is_shown() {
    let folder = Folder::new("faults-name");
    let path = folder.holding("zürich\n.book", &with_line(BOOK, 4, "N     1     1     0     1     3"));
    let answer = crate::running::run(&["check".as_ref(), path.as_os_str()]);
    let shown = path.display().to_string().replace('\n', "\\n");
    answer.fails(&format!(
        "hc: {shown}: fault 15, backward, at line 4: a child's number must be greater than its node's\n  \
         N     1     1     0     1     3\n"
    ));
}
