//! hc plain.

use crate::running::{run, run_on, Folder};
use crate::texts::{lines, longest_book, with_line, BOOK};
use std::ffi::OsStr;
use std::fs;

/// A book whose nodes stand in no plain order, with classes that are the same and classes that are not used.
pub const SPELLED: &str = "H 1 1 2 4 6 / Q 1 1 / Q 2 2 / Q 4 2 / L 0 10 / N 1 4 0 3 2 / N 2 2 2 5 4 / L 3 20 / \
    L 4 21 / L 5 22 / R 1 1 0 / R 2 1 1";
pub const PLAIN: &str =
    "H 1 1 2 1 6 / Q 1 2 / L 0 10 / N 1 1 0 2 3 / L 2 20 / N 3 1 2 4 5 / L 4 22 / L 5 21 / R 1 1 0 / R 2 1 1";

#[test]
fn to_standard_output() {
    run_on(&["plain", "-"], &lines(SPELLED)).gives(lines(PLAIN));
    run_on(&["plain", "-", "-o", "-"], &lines(SPELLED)).gives(lines(PLAIN));
    run_on(&["plain", "-"], &lines(PLAIN)).gives(lines(PLAIN));
    run_on(&["plain", "-"], BOOK).gives(BOOK);
}

#[test]
fn to_a_file() {
    let folder = Folder::new("plain-file");
    let (book, plain) = (folder.holding("book", &lines(SPELLED)), folder.holding("plain", b"old"));
    run(&[OsStr::new("plain"), book.as_os_str(), OsStr::new("-o"), plain.as_os_str()]).gives("");
    assert_eq!(fs::read(&plain).unwrap(), lines(PLAIN));
    assert_eq!(folder.names(), ["book", "plain"]);
}

#[test]
fn the_book_is_not_replaced() {
    let folder = Folder::new("plain-same");
    let book = folder.holding("book", &lines(SPELLED));
    run(&[OsStr::new("plain"), book.as_os_str(), OsStr::new("-o"), book.as_os_str()])
        .fails(&format!("hc: {}: the plain form would replace its book\n", book.display()));
    assert_eq!(fs::read(&book).unwrap(), lines(SPELLED));
}

#[test]
fn a_refused_book_leaves_the_file_as_it_was() {
    let folder = Folder::new("plain-refused");
    let book = folder.holding("book", &with_line(BOOK, 4, "N     1     1     0     1     3"));
    let plain = folder.holding("plain", b"old");
    run(&[OsStr::new("plain"), book.as_os_str(), OsStr::new("-o"), plain.as_os_str()])
        .fails_with(&format!("hc: {}: fault 15, backward, at line 4: ", book.display()));
    assert_eq!(fs::read(&plain).unwrap(), b"old");
}

/// Its 255 classes have the same members.
#[test]
fn the_longest_book() {
    let answer = run_on(&["plain", "-"], &longest_book(3));
    assert_eq!((answer.stderr.as_str(), answer.code), ("", Some(0)));
    assert_eq!(answer.stdout.len(), 32 * (1 + 64 + 4096 + 192));
    assert!(answer.stdout.starts_with(b"H     3     3    64     1  4096\nQ     1     1"));
    run_on(&["plain", "-"], &answer.stdout).gives(&answer.stdout);
}
