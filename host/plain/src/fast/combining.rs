//! The valid combinations, phone by phone.

use super::leaves::{collect, root_matrix, Leaf};
use super::Matrix;
use crate::in_force::roots_in_force;
use crate::limits::{COMBINATION, MOST_COMBINATIONS, NODE};
use crate::refusal::{refuse, Refusal, CHOICES};
use fulgwerz::{Header, Tables};

/// What connecting needs of the combinations, in their order.
pub struct Combinations<const W: usize> {
    pub matrices: Vec<Matrix<W>>,
    /// Phone and the models of the k leaves.
    pub sounds: Vec<Sound>,
    /// Where the combinations of each phone end, by phone from 1; 0 at 0.
    pub ends: [usize; 65],
}

#[derive(Clone, Copy, Default)]
pub struct Sound {
    pub phone: u32,
    pub models: [u32; 3],
}

/// Fills the lent space with whole records.
pub fn combine<const W: usize>(header: Header, tables: Tables, space: &mut [u64]) -> Result<Combinations<W>, Refusal> {
    let mut found = Found {
        room: (space.len() / COMBINATION).min(MOST_COMBINATIONS),
        space,
        tables,
        combinations: Combinations { matrices: Vec::new(), sounds: Vec::new(), ends: [0; 65] },
    };
    let mut trees: [Vec<Leaf<W>>; 3] = Default::default();
    let states = header.states as usize;
    for phone in 1..=header.phones {
        let root = root_matrix(header, phone);
        for (leaves, &tree) in trees.iter_mut().zip(roots_in_force(header, tables, phone)) {
            collect(tables, tree, root, leaves);
        }
        found.choose(phone, &trees[..states], 0, [0; 3], root)?;
        found.combinations.ends[phone as usize] = found.combinations.matrices.len();
    }
    Ok(found.combinations)
}

struct Found<'a, const W: usize> {
    space: &'a mut [u64],
    room: usize,
    tables: Tables<'a>,
    combinations: Combinations<W>,
}

impl<const W: usize> Found<'_, W> {
    /// Takes each leaf of the next tree that meets the leaves chosen so far.
    fn choose(
        &mut self, phone: u32, trees: &[Vec<Leaf<W>>], state: usize, chosen: [u32; 3], met: Matrix<W>,
    ) -> Result<(), Refusal> {
        let Some((leaves, further)) = trees.split_first() else {
            return self.put(phone, &chosen[..state], met);
        };
        for leaf in leaves {
            if let Some(met) = meet(&met, &leaf.matrix) {
                let mut chosen = chosen;
                chosen[state] = leaf.node;
                self.choose(phone, further, state + 1, chosen, met)?;
            }
        }
        Ok(())
    }

    fn put(&mut self, phone: u32, leaves: &[u32], matrix: Matrix<W>) -> Result<(), Refusal> {
        let number = self.combinations.matrices.len();
        if number == self.room {
            return refuse(CHOICES);
        }
        let record = &mut self.space[COMBINATION * number..][..COMBINATION];
        record[0] = u64::from(phone);
        let mut sound = Sound { phone, models: [0; 3] };
        for (state, &leaf) in leaves.iter().enumerate() {
            record[1 + state] = u64::from(leaf);
            sound.models[state] = self.tables.nodes[NODE * leaf as usize + 1];
        }
        record[4..4 + W].copy_from_slice(&matrix);
        self.combinations.matrices.push(matrix);
        self.combinations.sounds.push(sound);
        Ok(())
    }
}

/// The columns that both have, or nothing at the first empty one.
#[inline]
pub fn meet<const W: usize>(one: &Matrix<W>, other: &Matrix<W>) -> Option<Matrix<W>> {
    let mut met = [0; W];
    for column in 0..W {
        met[column] = one[column] & other[column];
        if met[column] == 0 {
            return None;
        }
    }
    Some(met)
}
