//! The space for words and joined networks, and the calls that fill it. As for builds, a fault for want of space is
//! answered only where it was met in the most space that document 02 allows.

use crate::buffers::ARC;
use crate::faults::{CROWD, TANGLE};
use crate::inputs::LINE;
use fulgwerz::{CountAnswer, Counts, JoinAnswer, Joined, Words};

/// Words of a record.
const WORD: usize = 65;
const JOINED: usize = 3;

const MOST_WORDS: usize = 9999;

/// How many records a join is lent.
struct Room {
    states: usize,
    arcs: usize,
}

/// Lent first, as for builds.
const FIRST_ROOM: Room = Room { states: 4095, arcs: 65536 };
const MOST_ROOM: Room = Room { states: 65535, arcs: 999_999 };

/// The words of a word book.
pub struct WordTable {
    count: usize,
    table: Vec<u32>,
}

impl WordTable {
    /// The phones of each word, from word 1 on.
    pub fn words(&self) -> impl Iterator<Item = &[u32]> {
        self.table.chunks_exact(WORD).take(self.count).map(|record| &record[1..=record[0] as usize])
    }
}

/// Reads a word book. Room for as many words as it has lines, or for the most that there can be, is always enough.
pub fn read_words(text: &[u8]) -> (CountAnswer, WordTable) {
    let lines = text.len() / LINE;
    let mut table = vec![0; lines.min(MOST_WORDS) * WORD];
    let answer = fulgwerz::read_words(text, &mut table);
    (answer, WordTable { count: answer.count, table })
}

/// A network joined with words: the answer, and the arcs that it counts.
pub fn join(counts: Counts, arcs: &[u32], words: &WordTable) -> (JoinAnswer, Vec<u32>) {
    let (answer, joined) = join_within(&FIRST_ROOM, counts, arcs, words);
    if matches!(answer.fault, CROWD | TANGLE) {
        return join_within(&MOST_ROOM, counts, arcs, words);
    }
    (answer, joined)
}

fn join_within(room: &Room, counts: Counts, arcs: &[u32], words: &WordTable) -> (JoinAnswer, Vec<u32>) {
    let (mut states, mut joined) = (vec![0; room.states * JOINED], vec![0; room.arcs * ARC]);
    let space = Joined { states: &mut states, arcs: &mut joined };
    let answer = fulgwerz::join(counts, arcs, Words { count: words.count, table: &words.table }, space);
    joined.truncate(answer.arcs * ARC);
    (answer, joined)
}
