//! Sounds at word boundaries (document 02, P2): answers worked out by hand from the documents.

mod reading;

use fulgwerz::{Counts, Header, Space, TablesMut};
use plain::books::broken_boundaries::broken;
use plain::books::random_books::random_book;
use plain::books::text::lines;
use plain::random::Random;
use reading::Read;
use std::collections::BTreeMap;

/// Phone 3 is phone 2 at a word's edge; both have one leaf.
const LEAVES: &str = "H 1 1 3 1 2 / Q 1 2 / L 0 10 / L 1 20 / B 3 2 / R 1 1 0 / R 2 1 1";

/// The tree asks whether the phone is 2 itself.
const ITSELF: &str = "H 0 1 3 1 4 / Q 1 2 / L 0 10 / N 1 1 0 2 3 / L 2 20 / L 3 21 / B 3 2 / R 1 1 0 / R 2 1 1";

/// The book is refused with this fault at this line, and all tables are cleared.
#[track_caller]
fn is_refused(book: &str, fault: u32, line: usize) {
    let (answer, left) = Read::answered(&lines(book));
    assert_eq!((answer.fault, answer.line, answer.header), (fault, line, Header::default()), "{book}");
    let narrow = [left.nodes, left.roots, left.plains].concat();
    assert!(narrow.iter().all(|&word| word == 0) && left.classes.iter().all(|&word| word == 0), "{book}");
}

#[track_caller]
fn is_accepted(book: &str) {
    Read::new(&lines(book));
}

fn models(book: &str, phones: &[u32]) -> Vec<u32> {
    let read = Read::new(&lines(book));
    let mut models = vec![7; phones.len() * read.header.states as usize];
    assert_eq!(plain::transcribe(read.header, read.tables(), phones, &mut models).fault, 0);
    models
}

#[test]
fn the_tables_of_a_book() {
    let read = Read::new(&lines(LEAVES));
    assert_eq!(read.nodes[..11], [2, 10, 0, 0, 0, 2, 20, 0, 0, 0, 0]);
    assert_eq!(read.classes[..2], [2, 0]);
    assert_eq!(read.roots[..4], [0, 1, 4096, 0]);
    assert_eq!(read.plains[..4], [0, 0, 2, 0]);
}

#[test]
fn lines_go_on_only_after_the_last_phone_s_last_r_line() {
    let then = |line: &str| format!("{LEAVES} / {line}");
    is_refused(&then("x"), 12, 8);
    is_refused(&then("R 2 1 1"), 14, 8);
    is_refused(&then("H 1 1 3 1 2"), 14, 8);
    is_refused(&then("B 3 2"), 14, 8);
    is_refused(&then("R 4 1 0"), 13, 8);
    is_refused(&then("R 3 1 1"), 16, 4);
    is_refused(&then("R 3 1 1 / x"), 17, 9);
    let last_is_plain = "H 0 1 3 0 2 / L 0 10 / L 1 30 / B 2 3 / R 1 1 0 / R 3 1 1";
    is_accepted(last_is_plain);
    is_refused(&format!("{last_is_plain} / x"), 17, 7);
}

#[test]
fn r_lines_are_left_out_all_together() {
    let two_states = "H 0 2 3 0 4 / L 0 1 / L 1 2 / L 2 3 / L 3 4 / B 2 3";
    is_accepted(&format!("{two_states} / R 1 1 0 / R 1 2 1 / R 3 1 2 / R 3 2 3"));
    is_refused(&format!("{two_states} / R 1 1 0 / R 1 2 1 / R 2 1 2 / R 3 1 3"), 14, 10);
    is_refused(&format!("{two_states} / R 1 1 0 / R 1 2 1 / R 2 2 2 / R 3 1 3"), 14, 9);
    is_refused(&format!("{two_states} / R 1 1 0 / R 1 2 1 / R 3 2 2"), 14, 9);
    is_refused(&format!("{two_states} / R 1 1 0 / R 3 1 2"), 14, 8);
    is_refused(&format!("{two_states} / R 2 1 0"), 14, 7);
    is_refused(&format!("{two_states} / R 1 1 0 / R 1 2 1 / R 3 1 2"), 17, 10);
    is_refused(&format!("{two_states} / R 1 1 0 / R 1 2 1"), 17, 9);
    is_refused(&format!("{two_states} / R 1 1 0"), 17, 8);
    is_refused(two_states, 17, 7);
    let last = two_states.replace("B 2 3", "B 3 1");
    is_accepted(&format!("{last} / R 1 1 0 / R 1 2 1 / R 2 1 2 / R 2 2 3"));
    is_refused(&format!("{last} / R 1 1 0 / R 1 2 1 / R 2 1 2 / R 2 2 3 / R 3 1 3"), 17, 12);
}

#[test]
fn b_lines_stand_between_nodes_and_roots_and_ascend() {
    let book = |before: &str, between: &str, after: &str| {
        format!("H 0 1 4 0 2 / {before}L 0 10 / L 1 20 / {between}R 1 1 0 / {after}R 2 1 1")
    };
    is_accepted(&book("", "B 3 2 / B 4 2 / ", ""));
    is_refused(&book("B 3 2 / B 4 2 / ", "", ""), 14, 2);
    is_refused(&book("", "B 3 2 / ", "B 4 2 / "), 14, 6);
    is_refused(&book("", "B 4 2 / B 3 2 / ", ""), 14, 5);
    is_refused(&book("", "B 3 2 / B 3 2 / B 4 1 / ", ""), 14, 5);
    is_refused("B 2 1", 14, 1);
    is_refused("H 0 1 2 0 1 / B 1 1", 14, 2);
    is_refused("H 0 1 2 0 1 / L 0 10 / R 1 1 0 / B 0 9", 14, 4);
}

#[test]
fn ranges_and_form_of_b_lines() {
    let with = |line: &str| format!("H 0 1 3 0 3 / L 0 10 / L 1 20 / L 2 30 / {line} / R 1 1 0 / R 2 1 1 / R 3 1 2");
    is_accepted(&with("B 2 1"));
    is_accepted(&with("B 3 1"));
    for line in ["B 1 2", "B 0 2", "B 4 2", "B 64 2", "B 65 2", "B 3 0", "B 3 4", "B 3 65"] {
        is_refused(&with(line), 13, 5);
    }
    for line in ["B 3", "B 3 2 0", "b 3 2", "B 3 02", "B"] {
        is_refused(&with(line), 12, 5);
    }
    is_refused("H 0 1 1 0 1 / L 0 10 / B 2 1 / R 1 1 0", 13, 3);
    is_refused("H 0 1 1 0 1 / L 0 10 / B 1 1 / R 1 1 0", 13, 3);
}

#[test]
fn chained() {
    is_refused("H 1 1 3 0 1 / L 0 10 / B 2 3 / B 3 1 / R 1 1 0", 21, 3);
    is_refused("H 1 1 3 0 1 / L 0 10 / B 2 1 / B 3 2 / R 1 1 0", 21, 4);
    is_refused("H 1 1 3 0 2 / L 0 10 / L 1 20 / B 3 3 / R 1 1 0 / R 2 1 1", 21, 4);
    // After 17 and before 16, at the lowest such line.
    is_refused("H 1 1 4 0 2 / L 0 10 / L 1 20 / B 2 1 / B 3 2 / B 4 3 / R 1 1 0", 21, 5);
    is_refused("H 1 1 4 0 2 / L 0 10 / L 1 20 / B 3 4 / B 4 3 / R 1 1 0", 17, 7);
    is_refused("H 1 1 3 0 2 / L 0 10 / L 1 20 / B 2 1 / R 1 1 0", 17, 6);
    is_refused("H 1 1 2 0 2 / L 0 10 / L 1 20 / B 2 1 / R 1 1 0", 16, 3);
}

#[test]
fn a_plain_table_too_short_is_narrow() {
    let text = lines(LEAVES);
    let read = |length: usize| {
        let mut plains = vec![7; length];
        let lent = TablesMut { nodes: &mut [7; 10], classes: &mut [7], roots: &mut [7; 3], plains: &mut plains };
        let answer = plain::read(&text, lent);
        (answer.fault, answer.line, plains)
    };
    assert_eq!(read(2), (20, 1, vec![0; 2]));
    assert_eq!(read(0), (20, 1, vec![]));
    assert_eq!(read(3), (0, 0, vec![0, 0, 2]));
}

#[test]
fn the_plain_phone_s_trees_with_the_boundary_phone_itself() {
    assert_eq!(models(LEAVES, &[1, 3, 1]), [10, 20, 10]);
    assert_eq!(models(ITSELF, &[1, 2, 3, 1]), [10, 20, 21, 10]);
    // R lines of its own are not used.
    let own = "H 0 1 3 0 3 / L 0 10 / L 1 20 / L 2 30 / B 3 2 / R 1 1 0 / R 2 1 1 / R 3 1 2";
    assert_eq!(models(own, &[1, 3, 1]), [10, 20, 10]);
    assert_eq!(models(&own.replace("B 3 2 / ", ""), &[1, 3, 1]), [10, 30, 10]);
    // Silence may be the plain phone.
    assert_eq!(models(&own.replace("B 3 2", "B 3 1"), &[1, 3, 1]), [10, 10, 10]);
}

/// The finished network's counts and text, by both builds.
fn network(book: &str) -> (Counts, String) {
    let read = Read::new(&lines(book));
    let build = |build: fn(Header, fulgwerz::Tables, Space, u32) -> fulgwerz::BuildAnswer| {
        let (mut combinations, mut metastates, mut arcs) = (vec![7; 11 * 50], vec![7; 8 * 50], vec![7; 4 * 200]);
        let space = Space { combinations: &mut combinations, metastates: &mut metastates, arcs: &mut arcs };
        let answer = build(read.header, read.tables(), space, 50);
        assert!(answer.finished);
        (answer.counts, arcs)
    };
    let (counts, arcs) = build(plain::build);
    assert_eq!(build(plain::fast::build), (counts, arcs.clone()));
    let mut text = vec![7; 32 * (counts.arcs as usize + 1)];
    assert_eq!(plain::write(counts, &arcs, &mut text).fault, 0);
    (counts, String::from_utf8(text).unwrap())
}

#[test]
fn combinations_are_by_the_trees_in_force() {
    let read = Read::new(&lines(ITSELF));
    let mut space = [7; 11 * 3];
    assert_eq!(plain::combine(read.header, read.tables(), &mut space).count, 3);
    let record = |phone, leaf, column| [phone, leaf, 0, 0, column, 0, 0, 0, 0, 0, 0];
    assert_eq!(space, [record(1, 0, 1), record(2, 2, 2), record(3, 3, 4)].concat()[..]);
}

#[test]
fn networks() {
    let arcs = "W 1 3 11 / A 0 2 10 1 / A 2 1 0 0 / A 2 2 10 1 / A 2 3 20 2 / A 2 4 21 3 / A 3 2 10 1 / A 3 3 20 2 / \
        A 3 4 21 3 / A 4 2 10 1 / A 4 3 20 2 / A 4 4 21 3";
    assert_eq!(network(ITSELF).1.as_bytes(), lines(arcs));
    // A metastate for each phone after each: three arcs each, one to FINAL for each of silence's, one from INITIAL.
    assert_eq!(network(LEAVES).0, Counts { states: 1, metastates: 9, arcs: 31 });
}

/// Foreign for every entry that takes all tables.
#[track_caller]
fn is_foreign(book: &str, change: impl Fn(&mut Read)) {
    let mut read = Read::new(&lines(book));
    change(&mut read);
    let (header, tables) = (read.header, read.tables());
    assert_eq!(plain::transcribe(header, tables, &[1], &mut [7; 9]).fault, 18);
    assert_eq!(plain::combine(header, tables, &mut [7; 99]).fault, 18);
    assert_eq!(plain::write_book(header, tables, &mut [7; 999]).fault, 18);
}

#[test]
fn foreign_tables() {
    is_foreign(LEAVES, |read| read.plains[0] = 1);
    is_foreign(LEAVES, |read| read.plains[2] = 4);
    is_foreign(LEAVES, |read| read.plains[2] = 3);
    is_foreign(LEAVES, |read| read.plains[2] = 0);
    is_foreign(LEAVES, |read| read.plains[3] = 1);
    is_foreign(LEAVES, |read| read.plains.truncate(2));
    is_foreign(LEAVES, |read| read.roots[2] = 4095);
    is_foreign(LEAVES, |read| read.roots[2] = 1);
    let all_boundaries = "H 1 1 3 0 1 / L 0 10 / B 2 1 / B 3 1 / R 1 1 0";
    is_foreign(all_boundaries, |read| read.plains[2] = 2);
    is_foreign(all_boundaries, |read| read.plains[1] = 0);
    // A node fewer, and the root that named it in only some of the states.
    let own = "H 0 2 2 0 4 / L 0 1 / L 1 2 / L 2 3 / L 3 4 / B 2 1 / R 1 1 0 / R 1 2 1 / R 2 1 2 / R 2 2 3";
    is_foreign(own, |read| {
        read.header.nodes = 3;
        read.nodes[15..20].fill(0);
        read.roots[3] = 4096;
    });
}

#[test]
fn books_that_break_a_rule_are_refused() {
    let mut random = Random::new(1);
    let mut met = BTreeMap::new();
    for _ in 0..400 {
        let book = random_book(&mut random);
        Read::new(&book.text());
        let (answer, _) = Read::answered(&broken(&book, &mut random).text());
        *met.entry(answer.fault).or_insert(0) += 1;
    }
    assert_eq!(met.keys().copied().collect::<Vec<u32>>(), [13, 14, 17, 21], "{met:?}");
}
