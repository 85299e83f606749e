//! The leaves of a tree with their matrices, ascending by node number.

use super::Matrix;
use crate::limits::{LEAF, NODE};
use fulgwerz::{Header, Tables};

#[derive(Clone, Copy)]
pub struct Leaf<const W: usize> {
    pub node: u32,
    pub matrix: Matrix<W>,
}

/// All phones in every column but the centre, which has the phone alone.
pub fn root_matrix<const W: usize>(header: Header, phone: u32) -> Matrix<W> {
    let mut matrix = [u64::MAX >> (64 - header.phones); W];
    matrix[W / 2] = 1 << (phone - 1);
    matrix
}

/// The leaves below a node that some context reaches.
pub fn collect<const W: usize>(tables: Tables, root: u32, matrix: Matrix<W>, leaves: &mut Vec<Leaf<W>>) {
    leaves.clear();
    let mut waiting = vec![Leaf { node: root, matrix }];
    while let Some(Leaf { node, matrix }) = waiting.pop() {
        let record = &tables.nodes[NODE * node as usize..][..NODE];
        if record[0] == LEAF {
            leaves.push(Leaf { node, matrix });
            continue;
        }
        let members = tables.classes[record[1] as usize - 1];
        let column = record[2] as usize;
        for (child, kept) in [(record[4], !members), (record[3], members)] {
            let mut matrix = matrix;
            matrix[column] &= kept;
            if matrix[column] != 0 {
                waiting.push(Leaf { node: child, matrix });
            }
        }
    }
    leaves.sort_unstable_by_key(|leaf| leaf.node);
}
