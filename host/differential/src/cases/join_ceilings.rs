//! Word books and joins at the ceilings and at the places where the rules meet; they do not depend on a seed.

use super::arcs::OwnNetwork;
use super::joining::Joining;
use super::reading_words::ReadingWords;
use super::tables::OwnTables;
use super::word_tables::OwnWords;
use super::Case;
use fulgwerz::{Counts, Space};
use plain::books::recipes::{grown, question_free, Grown};
use plain::books::text::lines;
use plain::books::Book;
use plain::limits::*;
use plain::word_books::recipes::*;
use plain::word_books::WordBook;

pub fn cases() -> Vec<Box<dyn Case>> {
    let mut cases = Vec::new();
    every_room(&mut cases);
    small_networks(&mut cases);
    joined_states(&mut cases);
    joined_arcs(&mut cases);
    most_words(&mut cases);
    usual_networks(&mut cases);
    readings(&mut cases);
    cases
}

/// A network of one state a metastate.
fn network(metastates: u32, arcs: &[[u32; ARC]]) -> OwnNetwork {
    OwnNetwork { counts: Counts { states: 1, metastates, arcs: arcs.len() as u32 }, arcs: arcs.concat() }
}

/// A finished one.
fn built(book: &Book) -> OwnNetwork {
    let tables = OwnTables::of(book, 0);
    let (mut combinations, mut metastates) = (vec![0; COMBINATION * 20_000], vec![0; METASTATE * MOST_METASTATES]);
    let mut arcs = vec![0; ARC * MOST_ARCS];
    let space = Space { combinations: &mut combinations, metastates: &mut metastates, arcs: &mut arcs };
    let answer = plain::fast::build(tables.header, tables.tables(), space, u32::MAX);
    assert!(answer.finished);
    arcs.truncate(ARC * answer.counts.arcs as usize);
    OwnNetwork { counts: answer.counts, arcs }
}

fn words(words: &[&[u32]]) -> WordBook {
    WordBook { words: words.iter().map(|word| word.to_vec()).collect() }
}

fn join(cases: &mut Vec<Box<dyn Case>>, network: &OwnNetwork, book: &WordBook, states: usize, arcs: usize) {
    let (network, words) = (network.clone(), OwnWords::of(book, 0));
    cases.push(Box::new(Joining { name: "join", network, words, lent: [JOINED * states, ARC * arcs] }));
}

/// Document 01's example in every space up to what its join with two words needs, and a little more.
fn every_room(cases: &mut Vec<Box<dyn Case>>) {
    let arcs = "0 2 10 1 2 1 0 0 2 2 10 1 2 3 20 2 3 4 10 1 3 5 21 2 4 1 0 0 4 2 10 1 4 3 20 2 5 4 10 1 5 5 21 2";
    let arcs: Vec<u32> = arcs.split(' ').map(|number| number.parse().expect("a number")).collect();
    let network = OwnNetwork { counts: Counts { states: 1, metastates: 4, arcs: 11 }, arcs };
    let words = OwnWords::of(&words(&[&[2], &[2, 2]]), 0);
    for states in 0..=JOINED * 10 {
        for arcs in [0, 3, 4, 8, 24, 52, 55, 56, 57, 60] {
            let (network, words) = (network.clone(), words.clone());
            cases.push(Box::new(Joining { name: "join", network, words, lent: [states, arcs] }));
        }
    }
    let mut lend = |words: OwnWords| {
        cases.push(Box::new(Joining { name: "join foreign", network: network.clone(), words, lent: [30, 60] }));
    };
    for count in [0, 1, 3, MOST_WORDS, MOST_WORDS + 1, 1 << 32 | 2, usize::MAX / WORD + 1, usize::MAX] {
        lend(OwnWords { count, ..words.clone() });
    }
    // The length of word 1, its phone, what follows it up to the record's end, and the same of word 2.
    for place in [0, 1, 2, 3, 64, 65, 66, 67, 68, 129] {
        for word in [0, 1, 2, 3, 63, 64, 65, 66, 1 << 16, u32::MAX] {
            let mut changed = words.clone();
            changed.table[place] = word;
            lend(changed);
        }
    }
}

/// Arcs from FINAL, with a phone into FINAL, without phone in circles, and silence inside words.
fn small_networks(cases: &mut Vec<Box<dyn Case>>) {
    let networks = [
        network(1, &[[1, 2, 5, 0]]),
        network(1, &[[2, 2, 5, 0]]),
        network(1, &[[1, 1, 5, 0], [1, 2, 6, 1], [1, 2, 7, 2], [1, 0, 8, 0]]),
        network(1, &[[0, 1, 3, 1], [0, 2, 4, 1], [2, 1, 5, 0], [2, 1, 6, 1], [2, 1, 7, 2]]),
        network(2, &[[0, 0, 1, 0], [0, 2, 2, 0], [2, 2, 3, 1], [2, 3, 4, 2], [3, 2, 5, 0], [3, 3, 6, 0]]),
        network(1, &[[0, 2, 5, 1], [2, 1, 0, 0], [2, 2, 6, 1], [2, 2, 7, 2]]),
        network(1, &[[0, 1, 0, 0], [0, 0, 0, 1], [0, 1, 0, 1]]),
        network(MOST_METASTATES as u32, &[[0, 65536, 1, 1], [65536, 65536, 2, 1], [65536, 1, 0, 0]]),
    ];
    let books = [words(&[&[2]]), words(&[&[1]]), words(&[&[2, 1, 2], &[1, 1], &[1]]), words(&[&[2, 2], &[2], &[2, 2]])];
    for network in &networks {
        for book in &books {
            join(cases, network, book, 20, 50);
            join(cases, network, book, 2, 1);
        }
    }
}

/// A word's later phones are a state each, beside three others.
fn joined_states(cases: &mut Vec<Box<dyn Case>>) {
    let loops = network(1, &[[0, 2, 5, 1], [2, 2, 6, 2]]);
    let (exact, more) = (places_in_all(2, MOST_JOINED - 3), places_in_all(2, MOST_JOINED - 2));
    for (book, states, arcs) in [
        (&exact, MOST_JOINED, 70_000),
        (&exact, MOST_JOINED - 1, 70_000),
        (&exact, MOST_JOINED + 5, 1 + MOST_JOINED - 3 + exact.words.len()),
        (&exact, MOST_JOINED + 5, MOST_JOINED - 3 + exact.words.len()),
        (&more, MOST_JOINED, 70_000),
        (&more, MOST_JOINED + 5, 70_000),
    ] {
        join(cases, &loops, book, states, arcs);
    }
}

/// A hundred arcs with the phone of 9999 words, 98 or 99 without phone, and the one from INITIAL.
fn joined_arcs(cases: &mut Vec<Box<dyn Case>>) {
    let with_silent_arcs = |count: u32| {
        let mut arcs = vec![[0, 2, 1, 1]];
        arcs.extend((1..=100).map(|model| [2, 2, model, 2]));
        arcs.extend((1..=count).map(|model| [2, 2, model, 0]));
        network(1, &arcs)
    };
    let (exact, more) = (with_silent_arcs(98), with_silent_arcs(99));
    for (network, arcs) in
        [(&exact, MOST_ARCS), (&exact, MOST_ARCS - 1), (&more, MOST_ARCS), (&more, MOST_ARCS + 5)]
    {
        join(cases, network, &all_alike(2), 5, arcs);
    }
}

/// 9999 words on one phone, with that count and those beside it; and as long as words can be.
fn most_words(cases: &mut Vec<Box<dyn Case>>) {
    let loops = network(1, &[[0, 2, 5, 1], [2, 1, 0, 0], [2, 2, 6, 1], [2, 2, 6, 2]]);
    for phone in [1, 2, 3] {
        join(cases, &loops, &all_alike(phone), 10, 30_000);
        join(cases, &loops, &all_alike(phone), 10, 9_999);
    }
    let one_more = WordBook { words: vec![vec![2]; MOST_WORDS + 1] };
    for (book, count, beyond) in [
        (&all_alike(2), 9998, 0),
        (&all_alike(2), 10_000, 0),
        (&all_alike(2), 10_000, WORD),
        (&all_alike(2), 9999, WORD),
        (&all_alike(2), 9999, 3),
        (&one_more, 10_000, 0),
        (&one_more, 9999, 0),
    ] {
        let (network, words) = (loops.clone(), OwnWords { count, ..OwnWords::of(book, beyond) });
        cases.push(Box::new(Joining { name: "join foreign", network, words, lent: [30, 50_000] }));
    }
    let all_phones = built(&question_free(0, 3, 64));
    join(cases, &all_phones, &longest(), MOST_JOINED, MOST_ARCS);
    join(cases, &all_phones, &longest(), MOST_JOINED, 30_000);
}

/// Triphones with words as they are spoken, and phones without neighbours.
fn usual_networks(cases: &mut Vec<Box<dyn Case>>) {
    let spoken = |count, lengths, endings| spoken(Spoken { count, phones: 40, lengths, endings, seed: 1 });
    let recipe = Grown { half: 1, states: 3, phones: 40, classes: 100, positions: &[0, 2], leaves: 8, seed: 1 };
    join(cases, &built(&grown(recipe)), &spoken(20, (2, 8), 39), MOST_JOINED, MOST_ARCS);
    join(cases, &built(&grown(recipe)), &spoken(500, (2, 8), 39), MOST_JOINED, MOST_ARCS);
    join(cases, &built(&question_free(1, 1, 40)), &spoken(300, (2, 8), 39), MOST_JOINED, MOST_ARCS);
    join(cases, &built(&question_free(0, 1, 40)), &spoken(9999, (2, 8), 39), MOST_JOINED, MOST_ARCS);
    join(cases, &built(&question_free(0, 3, 40)), &spoken(3000, (2, 8), 39), MOST_JOINED, MOST_ARCS);
}

/// As many and as long words as there can be, into tables of all lengths about them; and one line more.
fn readings(cases: &mut Vec<Box<dyn Case>>) {
    let mut read = |text: Vec<u8>, words: usize| cases.push(Box::new(ReadingWords { text, words }) as Box<dyn Case>);
    for words in [WORD * MOST_WORDS, WORD * MOST_WORDS - 1, WORD * (MOST_WORDS + 1)] {
        read(longest().text(), words);
        read(all_alike(3).text(), words);
    }
    for line in ["V 10000 1 1", "V 9999 2 1", "V 9999 1 1", "V 1 1 1", "x"] {
        read([all_alike(3).text(), lines(line)].concat(), WORD * MOST_WORDS);
    }
    let long = WordBook { words: vec![vec![2; MOST_PLACES]] };
    for line in ["V 1 65 1", "V 1 64 1", "V 2 1 1", "V 2 2 1", "V 3 1 1"] {
        read([long.text(), lines(line)].concat(), WORD * 2);
    }
    let in_order = ["V 1 1 1", "V 1 2 1", "V 2 1 1"];
    let out_of_range = ["V 0 1 1", "V 1 0 1", "V 1 1 0", "V 1 1 65"];
    for line in in_order.into_iter().chain(out_of_range).chain(["V 1 1", "V 1 1 1 0", "W 1 1 1"]) {
        for words in [0, 1, 64, 65, 66, 130] {
            read(lines(line), words);
            read(lines(&format!("V 1 1 64 / {line}")), words);
        }
    }
}
