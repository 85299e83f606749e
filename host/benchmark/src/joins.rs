//! The joins that are measured: networks of 40 phones with 100, 1000 and 9999 words. All stay within 65535 joined
//! states and 999999 arcs.

use crate::builds::{build, combine, Buffers, ReadBook, Room, Side};
use fulgwerz::{Counts, Words};
use plain::books::recipes::{grown, question_free, Grown};
use plain::books::Book;
use plain::limits::ARC;
use plain::word_books::recipes::{spoken, Spoken};
use plain::word_books::WordBook;

pub struct MeasuredJoin {
    pub name: &'static str,
    pub half: u32,
    pub phones: u32,
    pub counts: Counts,
    pub arcs: Vec<u32>,
    pub words: WordBook,
    pub table: Vec<u32>,
}

impl MeasuredJoin {
    fn new(name: &'static str, book: &Book, words: WordBook) -> MeasuredJoin {
        let (counts, arcs) = network(book);
        let table = words.table();
        MeasuredJoin { name, half: book.half, phones: book.phones, counts, arcs, words, table }
    }

    pub fn words(&self) -> Words<'_> {
        Words { count: self.words.words.len(), table: &self.table }
    }
}

const PHONES: u32 = 40;

/// With trees of four leaves for each of three states, which ask to both sides, a hundred words find room. In the other
/// networks every tree is a leaf, and a phone has one state. At half-width 1 a word's first phone still has a joined
/// state for each phone before it, and between words there is one for each two phones at a word's end: so 9999 words
/// find room only if they are short and few phones end them. At half-width 0 they find it as they are spoken.
pub fn joins() -> Vec<MeasuredJoin> {
    let trees = Grown { half: 1, states: 3, phones: PHONES, classes: 100, positions: &[0, 2], leaves: 4, seed: 1 };
    let all = PHONES as usize - 1;
    let words =
        |count, lengths, endings| spoken(Spoken { count, phones: PHONES, lengths, endings, seed: 1 });
    let usual = (2, 8);
    vec![
        MeasuredJoin::new("trees-100", &grown(trees), words(100, usual, all)),
        MeasuredJoin::new("triphones-100", &question_free(1, 1, PHONES), words(100, usual, all)),
        MeasuredJoin::new("triphones-1000", &question_free(1, 1, PHONES), words(1000, usual, all)),
        MeasuredJoin::new("triphones-9999-short", &question_free(1, 1, PHONES), words(9999, (3, 5), 2)),
        MeasuredJoin::new("phones-9999", &question_free(0, 1, PHONES), words(9999, usual, all)),
    ]
}

/// The finished network of a book.
fn network(book: &Book) -> (Counts, Vec<u32>) {
    let book = ReadBook::new(book);
    let mut buffers = Buffers::new(Room::LARGEST);
    combine(Side::Plain, &book, &mut buffers);
    let answer = build(Side::Plain, &book, &mut buffers);
    assert!(answer.finished, "the book is not built to its end: {answer:?}");
    buffers.arcs.truncate(ARC * answer.counts.arcs as usize);
    (answer.counts, buffers.arcs)
}
