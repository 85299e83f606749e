//! Reading a tree book and building its network, in one entry.

use crate::book_reader::read;
use crate::buffers::clear;
use crate::network::build;
use fulgwerz::{BuildAnswer, Space, Tables, TablesMut};

/// A refused reading clears the space too, a refused build the tables.
pub fn build_book(text: &[u8], tables: TablesMut, space: Space, turn_limit: u32) -> BuildAnswer {
    let TablesMut { nodes, classes, roots, plains } = tables;
    let lent = TablesMut { nodes: &mut *nodes, classes: &mut *classes, roots: &mut *roots, plains: &mut *plains };
    let reading = read(text, lent);
    if reading.fault != 0 {
        clear(space.combinations);
        clear(space.metastates);
        clear(space.arcs);
        return BuildAnswer { fault: reading.fault, line: reading.line, ..BuildAnswer::default() };
    }
    let answer = build(reading.header, Tables { nodes, classes, roots, plains }, space, turn_limit);
    if answer.fault != 0 {
        clear(nodes);
        clear(classes);
        clear(roots);
        clear(plains);
    }
    answer
}
