//! The space that is lent to the library, and the calls that fill it. Whatever space is lent first, a fault for want of
//! space is answered only where it was met in the most space that document 01 allows.

use crate::faults::{CHOICES, CROWD, NARROW, TANGLE};
use crate::inputs::LINE;
use fulgwerz::{BuildAnswer, Header, NetworkAnswer, ReadAnswer, Space, Tables, TablesMut, TranscriptAnswer};

/// Words of a record.
const NODE: usize = 5;
const COMBINATION: usize = 11;
const METASTATE: usize = 8;
pub const ARC: usize = 4;

/// In the root table: no R line gives this root.
const NO_ROOT: u32 = 4096;

/// The first word of a question's node.
const QUESTION: u32 = 1;

/// No build has more turns than metastates, 65535, so none is stopped.
const TURN_LIMIT: u32 = u32::MAX;

/// How many records a build is lent.
struct Room {
    combinations: usize,
    metastates: usize,
    arcs: usize,
}

/// Lent first: the library clears all that it is lent, and many books need only a small part of the most. Up to 4095
/// metastates it also takes less working space, and clears less of its own.
const FIRST_ROOM: Room = Room { combinations: 4096, metastates: 4095, arcs: 65536 };
const MOST_ROOM: Room = Room { combinations: 65535, metastates: 65535, arcs: 999_999 };

/// The tables of a book, long enough for any: 4096 nodes, 255 classes, 64 phones of 3 states.
pub struct BookTables {
    nodes: Vec<u32>,
    classes: Vec<u64>,
    roots: Vec<u32>,
    plains: Vec<u32>,
}

impl BookTables {
    fn empty() -> BookTables {
        BookTables { nodes: vec![0; 4096 * NODE], classes: vec![0; 255], roots: vec![0; 64 * 3], plains: vec![0; 64] }
    }

    fn lent_to_fill(&mut self) -> TablesMut<'_> {
        let BookTables { nodes, classes, roots, plains } = self;
        TablesMut { nodes, classes, roots, plains }
    }

    fn lent_to_read(&self) -> Tables<'_> {
        let BookTables { nodes, classes, roots, plains } = self;
        Tables { nodes, classes, roots, plains }
    }

    /// The root of a tree by its place in the order of the R lines, from 0, if it has an R line.
    pub fn root(&self, place: u32) -> Option<u32> {
        Some(self.roots[place as usize]).filter(|&root| root != NO_ROOT)
    }

    /// The plain phone that the B line of a phone names, if it has one.
    pub fn plain(&self, phone: u32) -> Option<u32> {
        Some(self.plains[phone as usize - 1]).filter(|&plain| plain != 0)
    }

    pub fn node(&self, number: u32) -> Node {
        match self.nodes[NODE * number as usize..][..NODE] {
            [QUESTION, class, position, yes, no] => {
                Node::Question { members: self.classes[class as usize - 1], position, yes, no }
            }
            [_, model, ..] => Node::Leaf { model },
            _ => unreachable!("a node has five words"),
        }
    }
}

/// A node of a book, with the members of its class.
pub enum Node {
    Question { members: u64, position: u32, yes: u32, no: u32 },
    Leaf { model: u32 },
}

pub fn read_book(text: &[u8]) -> (ReadAnswer, BookTables) {
    let mut tables = BookTables::empty();
    let answer = fulgwerz::read(text, tables.lent_to_fill());
    (answer, tables)
}

/// The plain form of a book, in so many bytes: the fault, and the text.
pub fn write_book(header: Header, tables: &BookTables, room: usize) -> (u32, Vec<u8>) {
    let mut text = vec![0; room];
    let answer = fulgwerz::write_book(header, tables.lent_to_read(), &mut text);
    text.truncate(answer.count);
    (answer.fault, text)
}

/// The models of the phones: the answer, and one model for each phone and state.
pub fn transcribe(header: Header, tables: &BookTables, phones: &[u32]) -> (TranscriptAnswer, Vec<u32>) {
    let mut models = vec![0; phones.len() * header.states as usize];
    let answer = fulgwerz::transcribe(header, tables.lent_to_read(), phones, &mut models);
    models.truncate(answer.count);
    (answer, models)
}

/// The network of a book: the answer, and the arcs that it counts.
pub fn build_book(text: &[u8]) -> (BuildAnswer, Vec<u32>) {
    let (answer, arcs) = build_within(&FIRST_ROOM, text);
    if matches!(answer.fault, CHOICES | CROWD | TANGLE) {
        return build_within(&MOST_ROOM, text);
    }
    (answer, arcs)
}

fn build_within(room: &Room, text: &[u8]) -> (BuildAnswer, Vec<u32>) {
    let mut tables = BookTables::empty();
    let mut combinations = vec![0; room.combinations * COMBINATION];
    let mut metastates = vec![0; room.metastates * METASTATE];
    let mut arcs = vec![0; room.arcs * ARC];
    let space = Space { combinations: &mut combinations, metastates: &mut metastates, arcs: &mut arcs };
    let answer = fulgwerz::build_book(text, tables.lent_to_fill(), space, TURN_LIMIT);
    arcs.truncate(answer.counts.arcs as usize * ARC);
    (answer, arcs)
}

/// The text of a network: the fault, and a line for the counts and for each arc.
pub fn write_network(counts: fulgwerz::Counts, arcs: &[u32]) -> (u32, Vec<u8>) {
    let mut text = vec![0; (1 + counts.arcs as usize) * LINE];
    let answer = fulgwerz::write(counts, arcs, &mut text);
    text.truncate(answer.count);
    (answer.fault, text)
}

/// Reads network text: the answer, and the arcs. Room for as many arcs as the text has lines is enough, unless its first
/// line counts more.
pub fn read_network(text: &[u8]) -> (NetworkAnswer, Vec<u32>) {
    let lines = text.len() / LINE;
    let (answer, arcs) = read_network_within(lines.min(MOST_ROOM.arcs), text);
    if answer.fault == NARROW {
        return read_network_within(MOST_ROOM.arcs, text);
    }
    (answer, arcs)
}

fn read_network_within(room: usize, text: &[u8]) -> (NetworkAnswer, Vec<u32>) {
    let mut arcs = vec![0; room * ARC];
    let answer = fulgwerz::read_network(text, &mut arcs);
    arcs.truncate(answer.counts.arcs as usize * ARC);
    (answer, arcs)
}
