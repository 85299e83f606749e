//! Measures the writing of one book's plain form: both sides in turn, again and again, the best time of each.

use crate::builds::{ReadBook, Side};
use crate::measuring::best_of;
use crate::memory::heap_and_stack;
use fulgwerz::CountAnswer;
use plain::limits::{LINE, MOST_CLASSES, MOST_NODES, MOST_PHONES, MOST_STATES};
use std::time::Duration;

/// Lines of the longest book: no phone but silence lacks a B line.
const MOST_LINES: u32 = 1 + MOST_CLASSES * MOST_PHONES + MOST_NODES + (MOST_PHONES - 1) + MOST_PHONES * MOST_STATES;

/// What writing costs one side.
#[derive(Clone, Copy)]
pub struct Costs {
    pub time: Duration,
    pub heap: usize,
    pub stack: usize,
}

pub struct Written {
    pub lines: usize,
    pub proved: Costs,
    pub plain: Costs,
}

/// Lends the bytes that the text needs.
pub fn measure(book: &ReadBook) -> Written {
    let mut longest = vec![0; LINE * MOST_LINES as usize];
    let length = write(Side::Plain, book, &mut longest).count;
    let mut texts = [vec![u8::MAX; length], vec![u8::MAX; length]];
    let answers = [Side::Proved, Side::Plain].map(|side| write(side, book, &mut texts[side as usize]));
    assert_eq!(answers[0], answers[1], "the answers differ");
    assert_eq!(answers[0].fault, 0, "the book is not written");
    let times = best_of(2000, book, &mut texts, |side, book, text| _ = write(side, book, text));
    assert!(texts[0] == texts[1], "the texts differ");
    let [proved, plain] = [Side::Proved, Side::Plain].map(|side| {
        let text = &mut texts[side as usize];
        let (heap, stack) = heap_and_stack(|| _ = write(side, book, text));
        Costs { time: times[side as usize], heap, stack }
    });
    Written { lines: length / LINE, proved, plain }
}

fn write(side: Side, book: &ReadBook, text: &mut [u8]) -> CountAnswer {
    match side {
        Side::Proved => fulgwerz::write_book(book.header, book.tables(), text),
        Side::Plain => plain::fast::write_book(book.header, book.tables(), text),
    }
}
