//! hc arcs.

use crate::running::{run, run_on, Folder};
use crate::texts::{line, plain_book, with_line, BOOK, NETWORK};

/// The A lines of the example whose places, counted from 0, these are.
fn lines(places: std::ops::Range<usize>) -> &'static [u8] {
    &NETWORK[32 * (1 + places.start)..32 * (1 + places.end)]
}

#[test]
fn every_state_of_the_example() {
    for (state, places) in [0..1, 1..1, 1..4, 4..6, 6..9, 9..11].into_iter().enumerate() {
        run_on(&["arcs", "-", &state.to_string()], NETWORK).gives(lines(places));
    }
}

#[test]
fn from_a_file() {
    let folder = Folder::new("arcs-file");
    let network = folder.holding("network", NETWORK);
    run(&["arcs".as_ref(), network.as_os_str(), "5".as_ref()]).gives(lines(9..11));
}

/// Metastate 0 is silence after silence; its first state leads on in its three states, its last to FINAL and to 17 phones.
#[test]
fn a_network_of_many_arcs() {
    let network = run_on(&["build", "-"], &plain_book(1, 3, 17));
    let answer = run_on(&["arcs", "-", "2"], &network.stdout);
    answer.gives(line('A', &[2, 3, 2, 0]));
    let answer = run_on(&["arcs", "-", "4"], &network.stdout);
    assert_eq!(answer.stdout.len(), 32 * 18);
    assert!(answer.stdout.starts_with(line('A', &[4, 1, 0, 0]).as_bytes()));
}

#[test]
fn state() {
    let message = "hc: standard input: fault 42, state: the network has no such state\n  \
        (the states of this network are 0 to 5)\n";
    for state in ["6", "4294967295"] {
        run_on(&["arcs", "-", state], NETWORK).fails(message);
    }
}

#[test]
fn states_that_are_no_numbers() {
    let usage = "states are numbers from 0 to 196606\nusage: hc arcs NETWORK STATE\n";
    run_on(&["arcs", "-", "4294967296"], NETWORK).fails(&format!("hc: '4294967296' is too large for a state: {usage}"));
    run_on(&["arcs", "-", "-1"], NETWORK).fails(&format!("hc: '-1' is not a state: {usage}"));
    run_on(&["arcs", "-", "0x2"], NETWORK).fails(&format!("hc: '0x2' is not a state: {usage}"));
}

/// A book is no network.
#[test]
fn a_book_in_place_of_a_network() {
    run_on(&["arcs", "-", "0"], BOOK).fails_with("hc: standard input: fault 12, misprint, at line 1: ");
    let usage = with_line(NETWORK, 1, "A     0     2    10     1");
    run_on(&["arcs", "-", "0"], &usage).fails_with("hc: standard input: fault 14, order, at line 1: ");
}
