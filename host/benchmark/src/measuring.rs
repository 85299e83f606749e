//! Measures one book: both builds in turn, again and again, the best time of each.

use crate::builds::{build, clear, combine, Buffers, ReadBook, Room, Side};
use crate::clock::time_of;
use crate::memory::heap_and_stack;
use fulgwerz::BuildAnswer;
use std::time::{Duration, Instant};

/// Times, heap and stack of one side.
#[derive(Clone, Copy)]
pub struct Costs {
    pub build: Duration,
    pub combine: Duration,
    pub clear: Duration,
    pub heap: usize,
    pub stack: usize,
}

pub struct Measurement {
    pub answer: BuildAnswer,
    pub combinations: usize,
    pub room: Room,
    pub proved: Costs,
    pub plain: Costs,
}

/// Lends what the build needs, or the largest space that it can use.
pub fn measure(book: &ReadBook, largest_room: bool) -> Measurement {
    let need = need_of(book);
    let room = if largest_room { Room::LARGEST } else { need };
    let mut buffers = [Buffers::new(room), Buffers::new(room)];
    let answer = build(Side::Proved, book, &mut buffers[0]);
    let plain_answer = build(Side::Plain, book, &mut buffers[1]);
    assert_eq!(answer, plain_answer, "the answers differ");
    assert!(buffers[0] == buffers[1], "the buffers differ");
    assert!(answer.finished, "the book is not built to its end: {answer:?}");
    let builds = best_of(2000, book, &mut buffers, |side, book, buffers| _ = build(side, book, buffers));
    assert!(buffers[0] == buffers[1], "the buffers differ after the last repetition");
    let combines = best_of(300, book, &mut buffers, |side, book, buffers| _ = combine(side, book, buffers));
    let clears = best_of(300, book, &mut buffers, clear);
    let costs = |side: Side, buffers: &mut Buffers| {
        let (heap, stack) = heap_and_stack(|| _ = build(side, book, buffers));
        let place = side as usize;
        Costs { build: builds[place], combine: combines[place], clear: clears[place], heap, stack }
    };
    let [proved, plain] = &mut buffers;
    let (proved, plain) = (costs(Side::Proved, proved), costs(Side::Plain, plain));
    Measurement { answer, combinations: need.combinations, room, proved, plain }
}

/// The records that the book's build leaves.
fn need_of(book: &ReadBook) -> Room {
    let mut buffers = Buffers::new(Room::LARGEST);
    let combinations = combine(Side::Plain, book, &mut buffers);
    let counts = build(Side::Plain, book, &mut buffers).counts;
    Room { combinations, metastates: counts.metastates as usize, arcs: counts.arcs as usize }
}

/// Both sides in turn, so that a disturbance meets both: at least five times each, and on until this many milliseconds
/// have passed or each ran two hundred times.
pub fn best_of<Given, Lent>(
    milliseconds: u64, given: &Given, buffers: &mut [Lent; 2], run: impl Fn(Side, &Given, &mut Lent),
) -> [Duration; 2] {
    let mut best = [Duration::MAX; 2];
    let begin = Instant::now();
    for repetition in 0..200 {
        if repetition >= 5 && begin.elapsed() > Duration::from_millis(milliseconds) {
            break;
        }
        for side in [Side::Proved, Side::Plain] {
            let time = time_of(|| run(side, given, &mut buffers[side as usize]));
            best[side as usize] = best[side as usize].min(time);
        }
    }
    best
}
