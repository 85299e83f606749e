//! hc check.

use crate::running::{run, run_on, Folder};
use crate::texts::{longest_book, with_line, BOOK};

#[test]
fn the_example_is_accepted() {
    let folder = Folder::new("check-example");
    let book = folder.holding("book", BOOK);
    let numbers = "half-width 1, states 1, phones 2, classes 1, nodes 4";
    run(&["check".as_ref(), book.as_os_str()]).gives(format!("{}: accepted: {numbers}\n", book.display()));
    run_on(&["check", "-"], BOOK).gives(format!("standard input: accepted: {numbers}\n"));
}

#[test]
fn half_width_3_is_accepted_and_4_is_not() {
    let wide = with_line(BOOK, 1, "H     3     1     2     1     4");
    run_on(&["check", "-"], &wide)
        .gives("standard input: accepted: half-width 3, states 1, phones 2, classes 1, nodes 4\n");
    let wider = with_line(BOOK, 1, "H     4     1     2     1     4");
    run_on(&["check", "-"], &wider).fails_with("hc: standard input: fault 13, range, at line 1: ");
}

/// No table that hc lends is too short for any book.
#[test]
fn the_longest_book_is_accepted() {
    run_on(&["check", "-"], &longest_book(3))
        .gives("standard input: accepted: half-width 3, states 3, phones 64, classes 255, nodes 4096\n");
}
