//! Small books about boundary phones, at the places where the rules meet: each is read and built, and tables like
//! theirs are lent to the other entries.

use super::building::{Building, BuildingBook, Room};
use super::combining::Combining;
use super::reading::{BookText, Read};
use super::tables::OwnTables;
use super::transcription::Transcription;
use super::writing_books::WritingBook;
use super::Case;
use fulgwerz::Header;
use plain::books::text::lines;
use plain::limits::*;

/// Phone 3 is phone 2 at a word's edge.
const LEAVES: &str = "H 1 1 3 1 2 / Q 1 2 / L 0 10 / L 1 20 / B 3 2 / R 1 1 0 / R 2 1 1";

/// What may stand after its last line.
const NEXT: [&str; 9] =
    ["x", "R 2 1 1", "H 1 1 3 1 2", "B 3 2", "Q 1 3", "R 4 1 0", "R 3 1 1", "R 3 1 1 / x", "R 3 2 1"];

/// Three phones of two states, and R lines left out.
const TWO_STATES: [&str; 10] = [
    "B 2 3 / R 1 1 0 / R 1 2 1 / R 3 1 2 / R 3 2 3",
    "B 2 3 / R 1 1 0 / R 1 2 1 / R 2 1 2 / R 3 1 3",
    "B 2 3 / R 1 1 0 / R 1 2 1 / R 2 2 2 / R 3 1 3",
    "B 2 3 / R 1 1 0 / R 1 2 1 / R 3 2 2",
    "B 2 3 / R 1 1 0 / R 3 1 2",
    "B 2 3 / R 1 1 0 / R 1 2 1",
    "B 3 1 / R 1 1 0 / R 1 2 1 / R 2 1 2 / R 2 2 3",
    "B 3 1 / R 1 1 0 / R 1 2 1 / R 2 1 2 / R 2 2 3 / R 3 1 3",
    "B 2 1 / B 3 1 / R 1 1 0 / R 1 2 1",
    "R 1 1 0 / R 1 2 1 / B 2 1 / B 3 1",
];

const OTHERS: [&str; 17] = [
    // The question is about the phone itself.
    "H 0 1 3 1 4 / Q 1 2 / L 0 10 / N 1 1 0 2 3 / L 2 20 / L 3 21 / B 3 2 / R 1 1 0 / R 2 1 1",
    // R lines that are not used; silence as the plain phone.
    "H 0 1 3 0 3 / L 0 10 / L 1 20 / L 2 30 / B 3 2 / R 1 1 0 / R 2 1 1 / R 3 1 2",
    "H 1 1 3 0 1 / L 0 10 / B 2 1 / B 3 1 / R 1 1 0",
    // Chained.
    "H 1 1 3 0 1 / L 0 10 / B 2 3 / B 3 1 / R 1 1 0",
    "H 1 1 3 0 1 / L 0 10 / B 2 1 / B 3 2 / R 1 1 0",
    "H 1 1 3 0 2 / L 0 10 / L 1 20 / B 3 3 / R 1 1 0 / R 2 1 1",
    // Chained beside a count, and beside an orphan.
    "H 1 1 4 0 2 / L 0 10 / L 1 20 / B 3 4 / B 4 3 / R 1 1 0",
    "H 1 1 4 0 2 / L 0 10 / L 1 20 / B 2 1 / B 3 2 / B 4 3 / R 1 1 0",
    "H 1 1 2 0 2 / L 0 10 / L 1 20 / B 2 1 / R 1 1 0",
    // Ranges, with one phone and with more.
    "H 0 1 1 0 1 / L 0 10 / B 2 1 / R 1 1 0",
    "H 0 1 1 0 1 / L 0 10 / B 1 1 / R 1 1 0",
    "H 0 1 3 0 1 / L 0 10 / B 2 4 / R 1 1 0",
    "H 0 1 3 0 1 / L 0 10 / B 65 1 / R 1 1 0",
    "H 0 1 3 0 1 / L 0 10 / B 2 0 / R 1 1 0",
    // Order: descending, twice, before the last node.
    "H 0 1 3 0 1 / L 0 10 / B 3 1 / B 2 1 / R 1 1 0",
    "H 0 1 3 0 1 / L 0 10 / B 2 1 / B 2 1 / R 1 1 0",
    "H 0 1 3 0 2 / L 0 10 / B 2 1 / L 1 20 / R 1 1 0",
];

pub fn cases() -> Vec<Box<dyn Case>> {
    let mut cases = Vec::new();
    let two_states = TWO_STATES.map(|rest| format!("H 0 2 3 0 4 / L 0 1 / L 1 2 / L 2 3 / L 3 4 / {rest}"));
    let next = NEXT.map(|line| format!("{LEAVES} / {line}"));
    let books = [LEAVES.to_string()].into_iter().chain(next).chain(two_states).chain(OTHERS.map(str::to_string));
    for book in books {
        let text = lines(&book);
        reading(&mut cases, &text, [NODE * 5, 2, 9, 5]);
        if let Some(tables) = OwnTables::read(&text) {
            lending(&mut cases, &tables);
        }
    }
    // Tables of just the length, and of one word less.
    for lent in [[10, 1, 3, 3], [9, 1, 3, 3], [10, 0, 3, 3], [10, 1, 2, 3], [10, 1, 3, 2], [10, 1, 3, 0]] {
        reading(&mut cases, &lines(LEAVES), lent);
    }
    foreign(&mut cases);
    some_states_left_out(&mut cases);
    cases
}

const ROOM: Room = Room { combinations: COMBINATION * 9, metastates: METASTATE * 12, arcs: ARC * 50 };

fn reading(cases: &mut Vec<Box<dyn Case>>, text: &[u8], lent: [usize; 4]) {
    let book = || BookText { text: text.to_vec(), lent };
    cases.push(Box::new(Read(book())));
    cases.push(Box::new(BuildingBook { book: book(), room: ROOM, turn_limit: 50 }));
}

fn lending(cases: &mut Vec<Box<dyn Case>>, tables: &OwnTables) {
    let tables = || tables.clone();
    let phones = vec![1, 2, 3, 3, 2, 1];
    cases.push(Box::new(Transcription { tables: tables(), phones, models: 12 }));
    cases.push(Box::new(Combining { tables: tables(), words: ROOM.combinations }));
    cases.push(Box::new(Building { tables: tables(), room: ROOM, turn_limit: 50 }));
    cases.push(Box::new(WritingBook { tables: tables(), text: 15 * LINE }));
}

/// The tables of the first book with a word changed: its plain phones, which are 0 0 2 and 0 beyond, or its roots,
/// which are 0 1 4096 and 0 beyond.
fn foreign(cases: &mut Vec<Box<dyn Case>>) {
    let known = OwnTables { plains: vec![0, 0, 2, 0], roots: vec![0, 1, NO_ROOT, 0], ..tables_of(LEAVES) };
    lending(cases, &known);
    for (place, word) in [(0, 1), (0, 2), (1, 1), (1, 3), (2, 0), (2, 1), (2, 3), (2, 4), (3, 1), (2, u32::MAX)] {
        let mut tables = known.clone();
        tables.plains[place] = word;
        lending(cases, &tables);
    }
    for (place, word) in [(0, 4096), (1, 4096), (2, 4095), (2, 4097), (2, 1), (2, 2), (3, 4096), (2, u32::MAX)] {
        let mut tables = known.clone();
        tables.roots[place] = word;
        lending(cases, &tables);
    }
    for length in [0, 2, 3] {
        lending(cases, &OwnTables { plains: known.plains[..length].to_vec(), ..known.clone() });
        lending(cases, &OwnTables { roots: known.roots[..length].to_vec(), ..known.clone() });
    }
}

/// Three leaves for phones of two states, of which phone 2 has one root; it is a boundary phone or not.
fn some_states_left_out(cases: &mut Vec<Box<dyn Case>>) {
    let three = tables_of("H 0 1 3 0 3 / L 0 10 / L 1 20 / L 2 30 / R 1 1 0 / R 2 1 1 / R 3 1 2");
    let header = Header { states: 2, phones: 2, ..three.header };
    for roots in [[0, 1, 2, NO_ROOT], [0, 1, NO_ROOT, 2], [0, NO_ROOT, 1, 2], [NO_ROOT, NO_ROOT, 1, 2]] {
        for plains in [[0, 1], [0, 0]] {
            lending(cases, &OwnTables { header, roots: roots.to_vec(), plains: plains.to_vec(), ..three.clone() });
        }
    }
}

fn tables_of(book: &str) -> OwnTables {
    OwnTables::read(&lines(book)).expect("an accepted book")
}
