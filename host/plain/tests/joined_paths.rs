//! What a joined network carries (document 02, P4), on random books and word books: exactly the models that the trees
//! give to silence, the phones of some words in order, and silence, each with these words.

mod reading;

use fulgwerz::{Counts, Joined, Space, Words};
use plain::books::random_books::random_book;
use plain::random::Random;
use plain::word_books::random_words::random_words;
use plain::word_books::WordBook;
use reading::Read;
use std::collections::BTreeSet;

/// Models and words.
type Carried = (Vec<u32>, Vec<u32>);

/// Sequences of words that have so many phones in all, or fewer.
const PHONES: usize = 4;

/// The finished network of a small book.
fn network(book: &Read) -> Option<(Counts, Vec<u32>)> {
    let (mut combinations, mut metastates, mut arcs) = (vec![0; 11 * 60], vec![0; 8 * 60], vec![0; 4 * 400]);
    let space = Space { combinations: &mut combinations, metastates: &mut metastates, arcs: &mut arcs };
    let answer = plain::build(book.header, book.tables(), space, u32::MAX);
    answer.finished.then_some((answer.counts, arcs))
}

/// By the trees: the models of every sequence of words.
fn expected(book: &Read, words: &WordBook) -> BTreeSet<Carried> {
    let mut found = BTreeSet::new();
    let mut waiting = vec![(vec![1], Vec::new())];
    while let Some((phones, said)) = waiting.pop() {
        for (word, more) in (1..).zip(&words.words) {
            if phones.len() + more.len() <= 1 + PHONES {
                waiting.push(([&phones[..], more].concat(), [&said[..], &[word]].concat()));
            }
        }
        let whole = [&phones[..], &[1]].concat();
        let mut models = vec![0; whole.len() * book.header.states as usize];
        if plain::transcribe(book.header, book.tables(), &whole, &mut models).fault == 0 {
            found.insert((models, said));
        }
    }
    found
}

/// By the paths from 0 to 1 of the joined network that have no more models than such sequences.
fn carried(arcs: &[[u32; 4]], most_models: usize) -> BTreeSet<Carried> {
    let mut found = BTreeSet::new();
    let mut waiting = vec![(0, (Vec::new(), Vec::new()))];
    while let Some((state, carried)) = waiting.pop() {
        for arc in arcs.iter().filter(|arc| arc[0] == state) {
            let (mut models, mut said) = carried.clone();
            models.extend(Some(arc[2]).filter(|&model| model != 0));
            said.extend(Some(arc[3]).filter(|&word| word != 0));
            if models.len() <= most_models {
                waiting.push((arc[1], (models, said)));
            }
        }
        if state == 1 {
            found.insert(carried);
        }
    }
    found
}

#[test]
fn models_and_words_are_carried_exactly_where_the_trees_give_them() {
    let mut random = Random::new(1);
    let (mut networks, mut pairs) = (0, 0);
    while networks < 150 {
        let book = random_book(&mut random);
        let read = Read::new(&book.text());
        let words = random_words(&mut random, book.phones);
        let Some((counts, arcs)) = network(&read).filter(|_| words.words.len() <= 5 && book.phones <= 5) else {
            continue;
        };
        let (mut states, mut joined) = (vec![0; 3 * 2000], vec![0; 4 * 9000]);
        let space = Joined { states: &mut states, arcs: &mut joined };
        let answer = plain::join(counts, &arcs, Words { count: words.words.len(), table: &words.table() }, space);
        assert_eq!(answer.fault, 0);
        let joined: Vec<[u32; 4]> =
            joined.chunks_exact(4).take(answer.arcs).map(|arc| arc.try_into().expect("four words")).collect();
        let most_models = book.states as usize * (PHONES + 2);
        let expected = expected(&read, &words);
        assert_eq!(carried(&joined, most_models), expected, "{book:?} {words:?}");
        networks += 1;
        pairs += expected.len();
    }
    assert!(pairs > 2000, "{pairs}");
}
