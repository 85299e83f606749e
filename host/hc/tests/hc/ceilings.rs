//! Networks in the most space that document 01 allows, and those beyond it.

use crate::running::{run_on, Answer, Folder};
use crate::texts::{book_of_choices, line, longest_book, plain_book};
use std::process::Command;

const HELPS: &str = "the most that can be built; a smaller half-width or fewer phones help most";

/// The network was built, with this W line and as many lines as it counts.
#[track_caller]
fn counts(answer: &Answer, numbers: [u32; 3]) {
    assert_eq!(answer.stderr, "");
    assert_eq!(answer.stdout.len(), 32 * (1 + numbers[2] as usize));
    assert_eq!(answer.stdout[..32], *line('W', &numbers).as_bytes());
    assert_eq!(answer.code, Some(0));
}

/// Beyond the space that is lent first, and below the ceilings: a metastate for every half-width + 1 phones. Each has an
/// arc to each phone, those of silence one to FINAL, and INITIAL has one.
#[test]
fn more_than_is_lent_first() {
    counts(&run_on(&["build", "-"], &plain_book(2, 1, 17)), [1, 4913, 83_811]);
    counts(&run_on(&["build", "-"], &plain_book(2, 1, 31)), [1, 29_791, 924_483]);
    counts(&run_on(&["build", "-"], &plain_book(3, 1, 15)), [1, 50_625, 762_751]);
}

/// At half-width 0 each phone is one metastate, with arcs between its three states and to all 64 phones; at half-width 3
/// there is one for every four phones.
#[test]
fn the_longest_book() {
    counts(&run_on(&["build", "-"], &longest_book(0)), [3, 64, 4226]);
    run_on(&["build", "-"], &longest_book(3)).fails_with("hc: standard input: fault 31, crowd: ");
}

/// The library's working space is on a thread that has enough stack, however little the main thread has.
#[test]
fn a_deep_tree_with_a_small_stack() {
    let folder = Folder::new("ceilings-stack");
    let book = folder.holding("book", &longest_book(0));
    let mut shell = Command::new("sh");
    shell.args(["-c", "ulimit -s 512 && exec \"$0\" build \"$1\"", env!("CARGO_BIN_EXE_hc")]).arg(book);
    counts(&shell.output().unwrap().into(), [3, 64, 4226]);
}

#[test]
fn choices() {
    let message =
        "hc: standard input: fault 30, choices: the leaves of the trees fit together in more than 65535 ways, \
        the most that can be built; ask fewer different questions in the trees of one phone\n";
    run_on(&["build", "-"], &book_of_choices(41)).fails(message);
}

#[test]
fn crowd() {
    let message =
        format!("hc: standard input: fault 31, crowd: the network needs more than 65535 metastates, {HELPS}\n");
    run_on(&["build", "-"], &plain_book(2, 1, 41)).fails(&message);
}

#[test]
fn tangle() {
    let message = format!("hc: standard input: fault 32, tangle: the network needs more than 999999 arcs, {HELPS}\n");
    run_on(&["build", "-"], &plain_book(2, 1, 32)).fails(&message);
}
