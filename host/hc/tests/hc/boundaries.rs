//! Books with boundary phones: document 02's B lines, by every command that reads a book.

use crate::running::{hc, run_on, Answer, Folder};
use crate::same::{differ, in_the_guide};
use crate::texts::{line, lines, longest_book, with_line, BOOK};

/// The guide's book: phone 4 is phone 2 at a word's edge.
const DIALECT: &str = "H 1 1 4 2 7 / Q 1 4 / Q 2 2 / Q 2 4 / L 0 10 / N 1 1 1 2 3 / L 2 21 / L 3 20 / N 4 2 2 5 6 / \
    L 5 30 / L 6 31 / B 4 2 / R 1 1 0 / R 2 1 1 / R 3 1 4";

/// The same with a tree of its own for phone 4, which is not used.
fn with_own_tree() -> String {
    DIALECT.replace("2 7 /", "2 8 /").replace("L 6 31 /", "L 6 31 / L 7 40 /") + " / R 4 1 7"
}

#[test]
fn check_counts_them() {
    let folder = Folder::new("boundaries-check");
    folder.holding("dialect.book", &lines(DIALECT));
    let answer: Answer = hc().current_dir(folder.path("")).args(["check", "dialect.book"]).output().unwrap().into();
    assert_eq!((answer.stderr.as_str(), answer.code), ("", Some(0)));
    assert!(in_the_guide(&answer.stdout));
    let six = "standard input: accepted: half-width 0, states 1, phones 7, classes 0, nodes 1, boundary phones 6\n";
    run_on(&["check", "-"], &lines("H 0 1 7 0 1 / L 0 10 / B 2 1 / B 3 1 / B 4 1 / B 5 1 / B 6 1 / B 7 1 / R 1 1 0"))
        .gives(six);
}

#[test]
fn transcribe_uses_the_plain_phone_s_trees() {
    for book in [DIALECT, &with_own_tree()] {
        run_on(&["transcribe", "-", "1", "3", "2", "3", "1"], &lines(book)).gives("10 30 20 31 10\n");
        run_on(&["transcribe", "-", "1", "3", "4", "1"], &lines(book)).gives("10 30 21 10\n");
    }
}

/// At half-width 0 the three phones follow each other as they like; the third has the tree of the second.
#[test]
fn build() {
    let book = "H 0 1 3 1 4 / Q 1 2 / L 0 10 / N 1 1 0 2 3 / L 2 20 / L 3 21 / B 3 2 / R 1 1 0 / R 2 1 1";
    let network = "W 1 3 11 / A 0 2 10 1 / A 2 1 0 0 / A 2 2 10 1 / A 2 3 20 2 / A 2 4 21 3 / A 3 2 10 1 / \
        A 3 3 20 2 / A 3 4 21 3 / A 4 2 10 1 / A 4 3 20 2 / A 4 4 21 3";
    run_on(&["build", "-"], &lines(book)).gives(lines(network));
}

/// Nodes in another order, a class more, and the tree that is not used; it is written all the same.
#[test]
fn the_plain_form_keeps_b_lines() {
    run_on(&["plain", "-"], &lines(DIALECT)).gives(lines(DIALECT));
    let spelled = "H 1 1 4 3 8 / Q 1 1 / Q 2 2 / Q 2 4 / Q 3 4 / L 0 40 / N 1 2 2 7 6 / N 2 3 1 4 3 / L 3 20 / \
        L 4 21 / L 5 10 / L 6 31 / L 7 30 / B 4 2 / R 1 1 5 / R 2 1 2 / R 3 1 1 / R 4 1 0";
    run_on(&["plain", "-"], &lines(spelled)).gives(lines(&with_own_tree()));
}

/// As long as a book can be: every phone but silence has a B line and R lines too.
#[test]
fn the_longest_book() {
    let book = longest_book(0);
    let roots = book.len() - 32 * 192;
    let boundaries: String = (2..=64).map(|phone| line('B', &[phone, 1])).collect();
    let longest = [&book[..roots], boundaries.as_bytes(), &book[roots..]].concat();
    assert_eq!(longest.len(), 32 * 20_672);
    let answer = run_on(&["check", "-"], &longest);
    answer.gives(
        "standard input: accepted: half-width 0, states 3, phones 64, classes 255, nodes 4096, boundary phones 63\n",
    );
    run_on(&["transcribe", "-", "1", "64", "1"], &longest).gives("1 2 3 1 2 3 1 2 3\n");
    assert_eq!(run_on(&["plain", "-"], &longest).stdout.len(), 32 * (1 + 64 + 4096 + 63 + 192));
}

#[test]
fn same_compares_b_lines() {
    let own = with_own_tree();
    differ("boundaries-plain", &own, &own.replace("B 4 2", "B 4 1"), "the B lines of phone 4 differ", [
        ": it takes the trees of phone 2",
        ": it takes the trees of phone 1",
    ]);
    differ("boundaries-none", &own.replace("B 4 2 / ", ""), &own, "the B lines of phone 4 differ", [
        ": it has no B line",
        ": it takes the trees of phone 2",
    ]);
}

#[test]
fn same_compares_r_lines_that_are_left_out() {
    let own = with_own_tree();
    let what = "the R lines of phone 4 differ";
    differ("boundaries-own", DIALECT, &own, what, [": it has a B line alone", ": it has R lines too"]);
    differ("boundaries-own", &own, DIALECT, what, [": it has R lines too", ": it has a B line alone"]);
    let other = own.replace("L 7 40", "L 7 41");
    differ("boundaries-own", &own, &other, "the trees of phone 4, state 1 differ: another model", [
        ", node 7: a leaf with model 40",
        ", node 7: a leaf with model 41",
    ]);
}

#[test]
fn chained() {
    let folder = Folder::new("boundaries-chained");
    let fifth = DIALECT.replace("H 1 1 4", "H 1 1 5").replace("B 4 2 /", "B 4 2 / B 5 4 /");
    folder.holding("dialect.book", &lines(&fifth));
    let message = "hc: dialect.book: fault 21, chained, at line 13: phone 5 takes the trees of phone 4, which is a \
        boundary phone itself\n  B     5     4                  \n";
    for command in ["check", "build", "plain"] {
        let answer: Answer = hc().current_dir(folder.path("")).args([command, "dialect.book"]).output().unwrap().into();
        answer.fails(message);
    }
    assert!(in_the_guide(message.as_bytes()));
}

#[test]
fn other_faults_of_b_lines() {
    let refused = |line: &str, start: &str| {
        let book = with_line(&lines(DIALECT), 12, line);
        run_on(&["check", "-"], &book).fails_with(&format!("hc: standard input: fault {start}, at line "));
    };
    refused("B     1     2", "13, range");
    refused("B     4     5", "13, range");
    refused("B     4", "12, misprint");
    refused("b     4     2", "12, misprint");
    refused("L     7    40", "14, order");
    let after = [BOOK, line('B', &[2, 1]).as_bytes()].concat();
    run_on(&["check", "-"], &after).fails_with("hc: standard input: fault 17, count, at line 9: ");
}
