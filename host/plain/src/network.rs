//! Connecting: document 000's Listing 1 with a first-in first-out queue, as document 01 orders it.

use crate::buffers::{clear, fill};
use crate::combinations::{combinations_of, words_of_all, Combination};
use crate::foreign::tables_known;
use crate::limits::*;
use crate::matrix::{is_valid, meet, shift, words_of, Matrix};
use crate::refusal::*;
use fulgwerz::{BuildAnswer, Counts, Header, Space, Tables};
use std::collections::HashMap;

const INITIAL: u32 = 0;
const FINAL: u32 = 1;

/// Builds the network from tables.
pub fn build(header: Header, tables: Tables, space: Space, turn_limit: u32) -> BuildAnswer {
    let Space { combinations, metastates, arcs } = space;
    match connect(header, tables, [combinations.len(), metastates.len(), arcs.len()], turn_limit) {
        Ok(network) => {
            fill(combinations, &words_of_all(&network.combinations));
            fill(metastates, &network.metastate_words());
            fill(arcs, &network.arcs.concat());
            network.answer()
        }
        Err(Refusal { fault, line }) => {
            clear(combinations);
            clear(metastates);
            clear(arcs);
            BuildAnswer { fault, line, ..BuildAnswer::default() }
        }
    }
}

/// A combination's number with a matrix.
type Metastate = (usize, Matrix);

struct Network<'a> {
    header: Header,
    nodes: &'a [u32],
    combinations: Vec<Combination>,
    metastates: Vec<Metastate>,
    places: HashMap<Metastate, usize>,
    metastate_room: usize,
    arcs: Vec<[u32; ARC]>,
    arc_room: usize,
    turns: usize,
}

fn connect<'a>(
    header: Header, tables: Tables<'a>, lent: [usize; 3], turn_limit: u32,
) -> Result<Network<'a>, Refusal> {
    require(tables_known(header, tables), FOREIGN)?;
    let mut network = Network {
        header,
        nodes: tables.nodes,
        combinations: combinations_of(header, tables, lent[0] / COMBINATION)?,
        metastates: Vec::new(),
        places: HashMap::new(),
        metastate_room: (lent[1] / METASTATE).min(MOST_METASTATES),
        arcs: Vec::new(),
        arc_room: (lent[2] / ARC).min(MOST_ARCS),
        turns: 0,
    };
    network.start()?;
    while network.turns < network.metastates.len() && network.turns < turn_limit as usize {
        network.turn()?;
    }
    Ok(network)
}

impl Network<'_> {
    /// Each silence combination whose matrix, with the columns left of the centre cut to silence, is valid.
    fn start(&mut self) -> Result<(), Refusal> {
        for number in 0..self.combinations.len() {
            let mut matrix = self.combinations[number].matrix.clone();
            for column in &mut matrix[..self.header.half as usize] {
                *column &= 1;
            }
            if self.combinations[number].phone == 1 && is_valid(&matrix) {
                self.enter(INITIAL, (number, matrix))?;
            }
        }
        Ok(())
    }

    /// Expands the oldest unexpanded metastate.
    fn turn(&mut self) -> Result<(), Refusal> {
        let (number, matrix) = self.metastates[self.turns].clone();
        let phone = self.combinations[number].phone;
        let first = self.first_state(self.turns);
        let last = first + self.header.states - 1;
        for state in 1..self.header.states {
            let model = self.model(number, state as usize);
            self.append([first + state - 1, first + state, model, 0])?;
        }
        let right_of_centre = &matrix[self.header.half as usize + 1..];
        if phone == 1 && right_of_centre.iter().all(|column| column & 1 == 1) {
            self.append([last, FINAL, 0, 0])?;
        }
        let shifted = shift(self.header, &matrix);
        for follower in 0..self.combinations.len() {
            let met = meet(&shifted, &self.combinations[follower].matrix).matrix;
            if is_valid(&met) {
                self.enter(last, (follower, met))?;
            }
        }
        self.turns += 1;
        Ok(())
    }

    /// The arc to a metastate, which is added just before if it has not occurred.
    fn enter(&mut self, from: u32, metastate: Metastate) -> Result<(), Refusal> {
        let number = metastate.0;
        let place = match self.places.get(&metastate) {
            Some(&place) => place,
            None => {
                require(self.metastates.len() < self.metastate_room, CROWD)?;
                self.places.insert(metastate.clone(), self.metastates.len());
                self.metastates.push(metastate);
                self.metastates.len() - 1
            }
        };
        self.append([from, self.first_state(place), self.model(number, 0), self.combinations[number].phone])
    }

    fn append(&mut self, arc: [u32; ARC]) -> Result<(), Refusal> {
        require(self.arcs.len() < self.arc_room, TANGLE)?;
        self.arcs.push(arc);
        Ok(())
    }

    fn first_state(&self, place: usize) -> u32 {
        2 + place as u32 * self.header.states
    }

    fn model(&self, combination: usize, state: usize) -> u32 {
        let leaf = self.combinations[combination].leaves[state];
        self.nodes[NODE * leaf as usize + 1]
    }

    /// Eight words each: the combination's number and the matrix.
    fn metastate_words(&self) -> Vec<u64> {
        let words = |(number, matrix): &Metastate| [[*number as u64].as_slice(), &words_of(matrix)].concat();
        self.metastates.iter().flat_map(words).collect()
    }

    fn answer(&self) -> BuildAnswer {
        let counts = Counts {
            states: self.header.states,
            metastates: self.metastates.len() as u32,
            arcs: self.arcs.len() as u32,
        };
        let finished = self.turns == self.metastates.len();
        BuildAnswer { fault: 0, line: 0, finished, turns: self.turns as u32, counts }
    }
}
