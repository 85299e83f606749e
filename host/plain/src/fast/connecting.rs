//! Connecting by turns: the metastates in a hash map, the followers by the phones of the shifted centre column.

use super::combining::{combine, meet, Combinations};
use super::hashing::FastHash;
use super::Matrix;
use crate::limits::{ARC, METASTATE, MOST_ARCS, MOST_METASTATES};
use crate::refusal::{refuse, Refusal, CROWD, TANGLE};
use fulgwerz::{BuildAnswer, Counts, Header, Space, Tables};
use std::collections::hash_map::Entry;
use std::collections::HashMap;
use std::hash::{Hash, Hasher};

pub fn connect<const W: usize>(
    header: Header, tables: Tables, space: Space, turn_limit: u32,
) -> Result<BuildAnswer, Refusal> {
    let found = combine::<W>(header, tables, space.combinations)?;
    let room = (space.metastates.len() / METASTATE).min(MOST_METASTATES);
    let mut network = Network {
        states: header.states,
        places: HashMap::with_capacity_and_hasher(room, FastHash::default()),
        metastates: space.metastates,
        metastate_room: room,
        arc_room: (space.arcs.len() / ARC).min(MOST_ARCS),
        arcs: space.arcs,
        arc_count: 0,
    };
    let mut silence_before = [u64::MAX >> (64 - header.phones); W];
    silence_before[..=W / 2].fill(1);
    network.follow(&found, silence_before, 0)?;
    let mut turns = 0;
    while (turns as usize) < network.places.len() && turns < turn_limit {
        network.expand(&found, header, turns)?;
        turns += 1;
    }
    let counts =
        Counts { states: header.states, metastates: network.places.len() as u32, arcs: network.arc_count as u32 };
    Ok(BuildAnswer { fault: 0, line: 0, finished: turns == counts.metastates, turns, counts })
}

/// A combination's number with a matrix.
#[derive(Eq)]
struct Metastate<const W: usize> {
    number: u32,
    matrix: Matrix<W>,
}

/// Written out, since comparing whole arrays is a call.
impl<const W: usize> PartialEq for Metastate<W> {
    #[inline]
    fn eq(&self, other: &Self) -> bool {
        let columns = self.matrix.iter().zip(&other.matrix);
        columns.fold(u64::from(self.number ^ other.number), |differs, (one, another)| differs | (one ^ another)) == 0
    }
}

impl<const W: usize> Hash for Metastate<W> {
    #[inline]
    fn hash<H: Hasher>(&self, hasher: &mut H) {
        hasher.write_u64(u64::from(self.number));
        for &column in &self.matrix {
            hasher.write_u64(column);
        }
    }
}

struct Network<'a, const W: usize> {
    states: u32,
    places: HashMap<Metastate<W>, u32, FastHash>,
    metastates: &'a mut [u64],
    metastate_room: usize,
    arcs: &'a mut [u32],
    arc_room: usize,
    arc_count: usize,
}

impl<const W: usize> Network<'_, W> {
    /// One turn: the arcs between a metastate's own states, to FINAL, and to its followers.
    fn expand(&mut self, found: &Combinations<W>, header: Header, place: u32) -> Result<(), Refusal> {
        let record = &self.metastates[METASTATE * place as usize..][..METASTATE];
        let sound = found.sounds[record[0] as usize];
        let mut shifted = [u64::MAX >> (64 - header.phones); W];
        shifted[..W - 1].copy_from_slice(&record[2..=W]);
        let may_end = sound.phone == 1 && shifted[W / 2..W - 1].iter().all(|column| column & 1 == 1);
        let first = 2 + place * self.states;
        let last = first + self.states - 1;
        for state in first..last {
            self.arc([state, state + 1, sound.models[(state + 1 - first) as usize], 0])?;
        }
        if may_end {
            self.arc([last, 1, 0, 0])?;
        }
        self.follow(found, shifted, last)
    }

    /// The arcs to each combination that meets the columns validly, phone by phone of the centre column.
    fn follow(&mut self, found: &Combinations<W>, columns: Matrix<W>, from: u32) -> Result<(), Refusal> {
        let mut centre = columns[W / 2];
        while centre != 0 {
            let phone = centre.trailing_zeros() as usize + 1;
            centre &= centre - 1;
            for number in found.ends[phone - 1]..found.ends[phone] {
                if let Some(met) = meet(&columns, &found.matrices[number]) {
                    let place = self.place(number as u32, met)?;
                    let sound = &found.sounds[number];
                    self.arc([from, 2 + place * self.states, sound.models[0], sound.phone])?;
                }
            }
        }
        Ok(())
    }

    /// Where a metastate stands; a new one is added.
    #[inline]
    fn place(&mut self, number: u32, matrix: Matrix<W>) -> Result<u32, Refusal> {
        let count = self.places.len();
        match self.places.entry(Metastate { number, matrix }) {
            Entry::Occupied(known) => Ok(*known.get()),
            Entry::Vacant(_) if count == self.metastate_room => refuse(CROWD),
            Entry::Vacant(new) => {
                let record = &mut self.metastates[METASTATE * count..][..METASTATE];
                record[0] = u64::from(number);
                record[1..=W].copy_from_slice(&matrix);
                Ok(*new.insert(count as u32))
            }
        }
    }

    #[inline]
    fn arc(&mut self, arc: [u32; ARC]) -> Result<(), Refusal> {
        if self.arc_count == self.arc_room {
            return refuse(TANGLE);
        }
        self.arcs[ARC * self.arc_count..][..ARC].copy_from_slice(&arc);
        self.arc_count += 1;
        Ok(())
    }
}
