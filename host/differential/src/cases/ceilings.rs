//! Cases at the ceilings: exactly as much as document 01 allows, and one more. And on both sides of the sizes at which the
//! library takes other working space.

use super::arcs::{Leaving, OwnNetwork, Writing};
use super::building::{Building, BuildingBook, Room};
use super::combining::Combining;
use super::lookup::Lookup;
use super::networks::{text_of, ReadingNetwork};
use super::plain_forms::PlainForm;
use super::reading::{BookText, Read};
use super::spellings;
use super::tables::OwnTables;
use super::transcription::Transcription;
use super::writing_books::WritingBook;
use super::Case;
use fulgwerz::Space;
use plain::books::{ceilings::*, recipes::question_free, recipes::resolving, respelling::respelled, Book};
use plain::limits::*;
use plain::random::Random;

pub fn cases() -> Vec<Box<dyn Case>> {
    let mut cases = Vec::new();
    combinations(&mut cases);
    metastates(&mut cases);
    arcs(&mut cases);
    largest(&mut cases);
    sounds(&mut cases);
    network(&mut cases);
    working_space(&mut cases);
    plain_forms(&mut cases);
    every_length(&mut cases);
    cases
}

fn combinations(cases: &mut Vec<Box<dyn Case>>) {
    let exact = combinations_65535();
    let (more, shared) = (combinations_65536(), combinations_65536_shared());
    for (book, records) in [(&exact, 65535), (&exact, 65534), (&more, 65540), (&shared, 65540)] {
        let words = COMBINATION * records;
        cases.push(Box::new(Combining { tables: OwnTables::of(book, 0), words }));
    }
}

fn building(book: &Book, metastates: usize, arcs: usize, turn_limit: u32) -> Box<dyn Case> {
    building_with(book, 50, metastates, arcs, turn_limit)
}

fn building_with(
    book: &Book, combinations: usize, metastates: usize, arcs: usize, turn_limit: u32,
) -> Box<dyn Case> {
    let room =
        Room { combinations: COMBINATION * combinations, metastates: METASTATE * metastates, arcs: ARC * arcs };
    Box::new(Building { tables: OwnTables::of(book, 0), room, turn_limit })
}

fn metastates(cases: &mut Vec<Box<dyn Case>>) {
    let exact = metastates_65535();
    cases.push(building(&exact, 65535, 986_401, u32::MAX));
    cases.push(building(&exact, 65535, 986_401, 65534));
    cases.push(building(&exact, 65534, 986_401, u32::MAX));
    cases.push(building(&metastates_65536(), 65540, 1_000_010, u32::MAX));
    let text = exact.text();
    let lent = exact.table_lengths();
    let room = Room { combinations: COMBINATION * 24, metastates: METASTATE * 65535, arcs: ARC * 986_401 };
    cases.push(Box::new(BuildingBook { book: BookText { text, lent }, room, turn_limit: 65535 }));
}

fn arcs(cases: &mut Vec<Box<dyn Case>>) {
    let exact = arcs_999999();
    cases.push(building(&exact, 32227, 999_999, u32::MAX));
    cases.push(building(&exact, 32227, 1_000_010, 32227));
    cases.push(building(&exact, 32227, 999_998, u32::MAX));
    cases.push(building(&arcs_1000000(), 32227, 1_000_000, u32::MAX));
}

/// The longest tables and the deepest trees.
fn largest(cases: &mut Vec<Box<dyn Case>>) {
    for book in [largest_tables(), deepest_tree(), longest_text(), deep_tree_shared()] {
        cases.push(Box::new(Read(BookText { text: book.text(), lent: book.table_lengths() })));
        let tables = OwnTables::of(&book, 0);
        let root = *book.roots.iter().rfind(|&&root| root != NO_ROOT).expect("a root");
        let context = vec![1; 2 * book.half as usize + 1];
        cases.push(Box::new(Lookup { tables: tables.clone(), root, context, in_list: false }));
        let phones = vec![1, book.phones, book.phones, 1];
        let models = 4 * book.states as usize;
        cases.push(Box::new(Transcription { tables: tables.clone(), phones, models }));
        cases.push(Box::new(Combining { tables, words: COMBINATION * 64 }));
        cases.push(building_with(&book, 10_000, 65540, 1_000_010, 100));
    }
}

/// Sequences of 1000000 phones and of one more, with room for the models and without; and a great sum, over trees with
/// walks of 511 questions.
fn sounds(cases: &mut Vec<Box<dyn Case>>) {
    for book in [resolving(0, 1, 3, &[0]), resolving(1, 2, 3, &[0, 2]), resolving(3, 3, 2, &[0, 6, 3])] {
        for count in [MOST_SOUNDS, MOST_SOUNDS + 1] {
            cases.push(spoken(&book, count, 0));
            cases.push(spoken(&book, count, 1));
        }
    }
    cases.push(spoken(&nodes_1024(), MOST_SOUNDS, 0));
}

/// All phones of the book in turn between silences, with so many models too few lent.
fn spoken(book: &Book, count: usize, too_few: usize) -> Box<dyn Case> {
    let mut phones: Vec<u32> = (1..=book.phones).cycle().take(count).collect();
    phones[count - 1] = 1;
    let models = count * book.states as usize - too_few;
    Box::new(Transcription { tables: OwnTables::of(book, 0), phones, models })
}

/// The longest network and its text.
fn network(cases: &mut Vec<Box<dyn Case>>) {
    let tables = OwnTables::of(&arcs_999999(), 0);
    let mut arcs = vec![0; ARC * MOST_ARCS];
    let (mut combinations, mut metastates) = (vec![0; COMBINATION * 50], vec![0; METASTATE * 32227]);
    let space = Space { combinations: &mut combinations, metastates: &mut metastates, arcs: &mut arcs };
    let counts = plain::fast::build(tables.header, tables.tables(), space, u32::MAX).counts;
    let network = OwnNetwork { counts, arcs };
    let text = text_of(&network);
    for state in [0, 1, 2, 20000, 32228, 32229] {
        cases.push(Box::new(Leaving { network: network.clone(), state }));
    }
    cases.push(Box::new(Writing { network: network.clone(), text: text.len() }));
    cases.push(Box::new(Writing { network, text: text.len() - 1 }));
    cases.push(Box::new(ReadingNetwork { text: text.clone(), arcs: ARC * MOST_ARCS }));
    cases.push(Box::new(ReadingNetwork { text, arcs: ARC * MOST_ARCS - 1 }));
}

/// 1024 nodes and one more; room for 4095 metastates and one more, with far more combinations than the short index of them
/// has room for, and with as many metastates as there is room for.
fn working_space(cases: &mut Vec<Box<dyn Case>>) {
    for book in [nodes_1024(), nodes_1025()] {
        cases.push(building_with(&book, 5000, 5000, 100_000, u32::MAX));
    }
    let many = combinations_65535();
    for (metastates, turns) in [(4095, 200), (4096, 200), (65535, 1000)] {
        cases.push(building_with(&many, 65535, metastates, 50_000, turns));
    }
    for (phones, metastates) in [(63, 3969), (63, 4095), (64, 4095), (64, 4096)] {
        cases.push(building_with(&question_free(1, 2, phones), 64, metastates, 300_000, u32::MAX));
    }
}

/// The longest plain forms, the largest tables, which have but one set of phones, and the deepest trees.
fn plain_forms(cases: &mut Vec<Box<dyn Case>>) {
    let mut random = Random::new(1);
    let deepest = [deepest_tree(), deepest_tree_of_no(), deep_tree_shared()];
    for book in [most_classes(), largest_tables(), longest_text()].into_iter().chain(deepest) {
        let spelled = respelled(&book, &mut random);
        let tables = OwnTables::of(&spelled, 0);
        let need = tables.plain_form().len();
        for text in [need - 1, need, need + LINE + 1] {
            cases.push(Box::new(WritingBook { tables: tables.clone(), text }));
        }
        cases.push(spellings::of_one_book(&book, &mut random));
        cases.push(spellings::of_two_books(&book, &mut random));
        cases.push(Box::new(PlainForm::new(&spelled, 0, vec![1, book.phones, 1])));
    }
}

/// A small book into every length of text, up to a line more than it needs.
fn every_length(cases: &mut Vec<Box<dyn Case>>) {
    let book = respelled(&resolving(1, 2, 2, &[0, 2]), &mut Random::new(1));
    let tables = OwnTables::of(&book, 0);
    for text in 0..=tables.plain_form().len() + LINE {
        cases.push(Box::new(WritingBook { tables: tables.clone(), text }));
    }
}
