//! Leaf matrices and the valid combinations of leaves.

use crate::buffers::{clear, fill};
use crate::foreign::tables_known;
use crate::in_force::roots_in_force;
use crate::limits::*;
use crate::matrix::{is_valid, meet, root_matrix, words_of, Matrix};
use crate::refusal::*;
use fulgwerz::{CountAnswer, Header, Tables};

/// A phone with one leaf from each of its trees.
#[derive(Clone, Debug)]
pub struct Combination {
    pub phone: u32,
    pub leaves: Vec<u32>,
    pub matrix: Matrix,
}

/// The valid combinations of leaves.
pub fn combine(header: Header, tables: Tables, space: &mut [u64]) -> CountAnswer {
    let found = require(tables_known(header, tables), FOREIGN)
        .and_then(|()| combinations_of(header, tables, space.len() / COMBINATION));
    match found {
        Ok(found) => {
            fill(space, &words_of_all(&found));
            CountAnswer { fault: 0, line: 0, count: found.len() }
        }
        Err(Refusal { fault, line }) => {
            clear(space);
            CountAnswer { fault, line, count: 0 }
        }
    }
}

/// Ascending by phone, first leaf, second, third; 30 where there are more than the room or 65535.
pub fn combinations_of(header: Header, tables: Tables, room: usize) -> Result<Vec<Combination>, Refusal> {
    let mut found = Vec::new();
    for phone in 1..=header.phones {
        let begun = Combination { phone, leaves: Vec::new(), matrix: root_matrix(header, phone) };
        let trees: Vec<Vec<(u32, Matrix)>> = roots_in_force(header, tables, phone)
            .iter()
            .map(|&root| leaves_below(tables, root, begun.matrix.clone()))
            .collect();
        extend(&mut found, begun, &trees, room.min(MOST_COMBINATIONS))?;
    }
    Ok(found)
}

/// The leaves of a tree with their matrices, by ascending node number.
fn leaves_below(tables: Tables, node: u32, matrix: Matrix) -> Vec<(u32, Matrix)> {
    let record = &tables.nodes[NODE * node as usize..][..NODE];
    if record[0] == LEAF {
        return vec![(node, matrix)];
    }
    let members = tables.classes[record[1] as usize - 1];
    let cut = |kept: u64| {
        let mut matrix = matrix.clone();
        matrix[record[2] as usize] &= kept;
        matrix
    };
    let mut leaves = leaves_below(tables, record[3], cut(members));
    leaves.extend(leaves_below(tables, record[4], cut(!members)));
    leaves.sort();
    leaves
}

/// Adds every combination that goes on from the leaves chosen so far. What meets nothing now never will.
fn extend(
    found: &mut Vec<Combination>, begun: Combination, trees: &[Vec<(u32, Matrix)>], room: usize,
) -> Result<(), Refusal> {
    let Some((leaves, further)) = trees.split_first() else {
        require(found.len() < room, CHOICES)?;
        found.push(begun);
        return Ok(());
    };
    for (leaf, matrix) in leaves {
        let mut longer = begun.clone();
        longer.leaves.push(*leaf);
        longer.matrix = meet(&begun.matrix, matrix).matrix;
        if is_valid(&longer.matrix) {
            extend(found, longer, further, room)?;
        }
    }
    Ok(())
}

/// Eleven words each: phone, three leaf nodes (0 beyond k), matrix.
pub fn words_of_all(combinations: &[Combination]) -> Vec<u64> {
    let words = |combination: &Combination| {
        let mut words = [0; COMBINATION];
        words[0] = u64::from(combination.phone);
        for (state, &leaf) in combination.leaves.iter().enumerate() {
            words[1 + state] = u64::from(leaf);
        }
        words[4..].copy_from_slice(&words_of(&combination.matrix));
        words
    };
    combinations.iter().flat_map(words).collect()
}
