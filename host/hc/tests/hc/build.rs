//! hc build, apart from faults and files.

use crate::running::{hc, run, run_on, Answer, Folder};
use crate::texts::{line, plain_book, BOOK, NETWORK};
use std::fs::OpenOptions;
use std::io::Write;
use std::process::Stdio;
use std::thread;
use std::time::Duration;

#[test]
fn the_example_from_a_file() {
    let folder = Folder::new("build-example");
    let book = folder.holding("book", BOOK);
    run(&["build".as_ref(), book.as_os_str()]).gives(NETWORK);
}

#[test]
fn the_example_from_standard_input() {
    run_on(&["build", "-"], BOOK).gives(NETWORK);
    run_on(&["build", "-", "-o", "-"], BOOK).gives(NETWORK);
    run_on(&["build", "-o", "-", "-"], BOOK).gives(NETWORK);
    run_on(&["build", "--", "-"], BOOK).gives(NETWORK);
}

/// Phone 1 alone, in three states: the arcs of its three states, to FINAL and round again.
#[test]
fn a_book_of_three_states() {
    let network = [
        line('W', &[3, 1, 5]),
        line('A', &[0, 2, 1, 1]),
        line('A', &[2, 3, 2, 0]),
        line('A', &[3, 4, 3, 0]),
        line('A', &[4, 1, 0, 0]),
        line('A', &[4, 2, 1, 1]),
    ];
    run_on(&["build", "-"], &plain_book(0, 3, 1)).gives(network.concat());
}

#[test]
fn a_reader_that_goes_away_is_no_panic() {
    let mut child =
        hc().args(["build", "-"]).stdin(Stdio::piped()).stdout(Stdio::piped()).stderr(Stdio::piped()).spawn().unwrap();
    drop(child.stdout.take());
    child.stdin.take().unwrap().write_all(BOOK).unwrap();
    Answer::from(child.wait_with_output().unwrap()).fails("");
}

#[test]
fn a_full_device_is_reported() {
    let full = OpenOptions::new().write(true).open("/dev/full").unwrap();
    let folder = Folder::new("build-full");
    let book = folder.holding("book", BOOK);
    let output = hc().arg("build").arg(book).stdout(full).output().unwrap();
    Answer::from(output).fails_with("hc: standard output: No space left on device");
}

/// The input comes late, but standard error is no terminal.
#[test]
fn a_long_stage_says_nothing_without_a_terminal() {
    let mut child =
        hc().args(["build", "-"]).stdin(Stdio::piped()).stdout(Stdio::piped()).stderr(Stdio::piped()).spawn().unwrap();
    let mut stdin = child.stdin.take().unwrap();
    thread::sleep(Duration::from_millis(1300));
    stdin.write_all(BOOK).unwrap();
    drop(stdin);
    Answer::from(child.wait_with_output().unwrap()).gives(NETWORK);
}
