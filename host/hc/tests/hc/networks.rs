//! The message of every fault that network text can have.

use crate::running::run_on;
use crate::texts::{line, with_line, NETWORK};

#[track_caller]
fn refused(network: &[u8], start: &str, shown: &str) {
    let answer = run_on(&["arcs", "-", "0"], network);
    answer.fails_with(&format!("hc: standard input: {start}: "));
    assert!(answer.stderr.ends_with(&format!("\n  {shown}\n")), "{:?} does not end in {shown:?}", answer.stderr);
}

#[track_caller]
fn refused_at(number: usize, line: &str, start: &str) {
    refused(&with_line(NETWORK, number, line), start, &format!("{line:31}"));
}

#[test]
fn ragged() {
    refused(b"", "fault 11, ragged", "the text is empty");
    refused(&NETWORK[..383], "fault 11, ragged", "A     5     5    21     2      ");
}

#[test]
fn misprint() {
    refused_at(2, "A     0     2    10", "fault 12, misprint, at line 2");
    refused_at(3, "X     2     1     0     0", "fault 12, misprint, at line 3");
}

#[test]
fn range() {
    refused_at(1, "W     4     4    11", "fault 13, range, at line 1");
    refused_at(12, "A     5     6    21     2", "fault 13, range, at line 12");
}

#[test]
fn order() {
    refused_at(12, "A     4     5    21     2", "fault 14, order, at line 12");
    refused_at(2, "W     1     4    11", "fault 14, order, at line 2");
}

#[test]
fn count_for_an_early_end() {
    refused(&NETWORK[..352], "fault 17, count, at line 12", "(one past the last line: the text ends too early)");
}

/// A first line that counts more arcs than follow: the space is never what is wrong.
#[test]
fn count_for_an_early_end_and_not_narrow() {
    for arcs in [12, 13, 999_999] {
        let network = with_line(NETWORK, 1, line('W', &[1, 4, arcs]).trim_end());
        refused(&network, "fault 17, count, at line 13", "(one past the last line: the text ends too early)");
    }
    refused(
        line('W', &[1, 4, 11]).as_bytes(),
        "fault 17, count, at line 2",
        "(one past the last line: the text ends too early)",
    );
}

#[test]
fn count_for_going_on() {
    let network = [NETWORK, line('A', &[5, 5, 21, 2]).as_bytes()].concat();
    refused(&network, "fault 17, count, at line 13", "A     5     5    21     2      ");
}
