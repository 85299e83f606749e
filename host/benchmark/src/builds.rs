//! The two builds that are compared, from the same tables into buffers of the same lengths.

use fulgwerz::{BuildAnswer, Header, Space, Tables, TablesMut};
use plain::books::Book;
use plain::limits::*;

#[derive(Clone, Copy, Debug, PartialEq, Eq)]
pub enum Side {
    Proved,
    Plain,
}

/// A book as reading left it.
pub struct ReadBook {
    pub header: Header,
    nodes: Vec<u32>,
    classes: Vec<u64>,
    roots: Vec<u32>,
    plains: Vec<u32>,
}

impl ReadBook {
    pub fn new(book: &Book) -> ReadBook {
        let [nodes, classes, roots, plains] = book.table_lengths();
        let (mut nodes, mut classes) = (vec![0; nodes], vec![0; classes]);
        let (mut roots, mut plains) = (vec![0; roots], vec![0; plains]);
        let lent = TablesMut { nodes: &mut nodes, classes: &mut classes, roots: &mut roots, plains: &mut plains };
        let answer = fulgwerz::read(&book.text(), lent);
        assert_eq!(answer.fault, 0, "the book is refused at line {}", answer.line);
        ReadBook { header: answer.header, nodes, classes, roots, plains }
    }

    pub fn tables(&self) -> Tables<'_> {
        Tables { nodes: &self.nodes, classes: &self.classes, roots: &self.roots, plains: &self.plains }
    }
}

/// The buffers that one side fills.
#[derive(PartialEq, Eq)]
pub struct Buffers {
    pub combinations: Vec<u64>,
    pub metastates: Vec<u64>,
    pub arcs: Vec<u32>,
}

/// How much space is lent, in records.
#[derive(Clone, Copy)]
pub struct Room {
    pub combinations: usize,
    pub metastates: usize,
    pub arcs: usize,
}

impl Room {
    pub const LARGEST: Room =
        Room { combinations: MOST_COMBINATIONS, metastates: MOST_METASTATES, arcs: MOST_ARCS };

    pub fn bytes(self) -> usize {
        8 * (COMBINATION * self.combinations + METASTATE * self.metastates) + 4 * ARC * self.arcs
    }
}

impl Buffers {
    /// Filled with ones, so that every page is there before anything is timed.
    pub fn new(room: Room) -> Buffers {
        Buffers {
            combinations: vec![u64::MAX; COMBINATION * room.combinations],
            metastates: vec![u64::MAX; METASTATE * room.metastates],
            arcs: vec![u32::MAX; ARC * room.arcs],
        }
    }

    pub fn space(&mut self) -> Space<'_> {
        Space { combinations: &mut self.combinations, metastates: &mut self.metastates, arcs: &mut self.arcs }
    }
}

/// The whole build.
pub fn build(side: Side, book: &ReadBook, buffers: &mut Buffers) -> BuildAnswer {
    match side {
        Side::Proved => fulgwerz::build(book.header, book.tables(), buffers.space(), u32::MAX),
        Side::Plain => plain::fast::build(book.header, book.tables(), buffers.space(), u32::MAX),
    }
}

/// The combinations alone.
pub fn combine(side: Side, book: &ReadBook, buffers: &mut Buffers) -> usize {
    let answer = match side {
        Side::Proved => fulgwerz::combine(book.header, book.tables(), &mut buffers.combinations),
        Side::Plain => plain::fast::combine(book.header, book.tables(), &mut buffers.combinations),
    };
    assert_eq!(answer.fault, 0);
    answer.count
}

/// The clearing alone: the header that no reader leaves is refused before anything else is done.
pub fn clear(side: Side, book: &ReadBook, buffers: &mut Buffers) {
    let foreign = Header { half: u32::MAX, ..book.header };
    let answer = match side {
        Side::Proved => fulgwerz::build(foreign, book.tables(), buffers.space(), u32::MAX),
        Side::Plain => plain::fast::build(foreign, book.tables(), buffers.space(), u32::MAX),
    };
    assert_eq!(answer.fault, plain::refusal::FOREIGN);
}
