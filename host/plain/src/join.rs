//! Joining a network with the words of a word book (document 02, P4), sentence by sentence.

use crate::buffers::{clear, fill};
use crate::foreign::arcs_known;
use crate::limits::*;
use crate::refusal::*;
use crate::words::{phones_of, words_known};
use fulgwerz::{Counts, JoinAnswer, Joined, Words};
use std::collections::HashMap;

const INITIAL: u32 = 0;
const FINAL: u32 = 1;
const SILENCE: u32 = 1;

/// Joins a network with the words of a word book.
pub fn join(counts: Counts, arcs: &[u32], words: Words, space: Joined) -> JoinAnswer {
    let Joined { states, arcs: joined } = space;
    match join_all(counts, arcs, words, [states.len(), joined.len()]) {
        Ok(network) => {
            fill(states, &network.states.iter().flat_map(State::words).collect::<Vec<u32>>());
            fill(joined, &network.arcs.concat());
            JoinAnswer { fault: 0, line: 0, states: network.states.len(), arcs: network.arcs.len() }
        }
        Err(Refusal { fault, line }) => {
            clear(states);
            clear(joined);
            JoinAnswer { fault, line, states: 0, arcs: 0 }
        }
    }
}

/// What of the words was said: so many phones of a word. Without a word, 0 is before the first silence, 1 between
/// words, 2 after the last silence.
type Said = (u32, u32);

const NOTHING: Said = (0, 0);
const BETWEEN: Said = (0, 1);
const ALL: Said = (0, 2);

/// A joined state.
#[derive(Clone, Copy, PartialEq, Eq, Hash)]
struct State {
    network: u32,
    said: Said,
}

impl State {
    fn words(&self) -> [u32; JOINED] {
        [self.network, self.said.0, self.said.1]
    }
}

/// What an arc leads to, and the word that begins there, or 0.
type Step = (Said, u32);

struct Network<'a> {
    words: Vec<&'a [u32]>,
    states: Vec<State>,
    numbers: HashMap<State, u32>,
    state_room: usize,
    arcs: Vec<[u32; ARC]>,
    arc_room: usize,
}

fn join_all<'a>(
    counts: Counts, arcs: &[u32], words: Words<'a>, lent: [usize; 2],
) -> Result<Network<'a>, Refusal> {
    require(arcs_known(counts, arcs), FOREIGN)?;
    require(words_known(words), FOREIGN)?;
    let mut network = Network {
        words: phones_of(words),
        states: Vec::new(),
        numbers: HashMap::new(),
        state_room: (lent[0] / JOINED).min(MOST_JOINED),
        arcs: Vec::new(),
        arc_room: (lent[1] / ARC).min(MOST_ARCS),
    };
    network.number_of(State { network: INITIAL, said: NOTHING })?;
    network.number_of(State { network: FINAL, said: ALL })?;
    let arcs: Vec<&[u32]> = arcs.chunks_exact(ARC).take(counts.arcs as usize).collect();
    let mut expanded = 0;
    while expanded < network.states.len() {
        network.expand(expanded, &arcs)?;
        expanded += 1;
    }
    Ok(network)
}

impl Network<'_> {
    /// The joined arcs that leave a state: by the network's arcs in their order, then by word, closing silence first.
    fn expand(&mut self, number: usize, arcs: &[&[u32]]) -> Result<(), Refusal> {
        let State { network, said } = self.states[number];
        let first = arcs.partition_point(|arc| arc[0] < network);
        for arc in arcs[first..].iter().take_while(|arc| arc[0] == network) {
            for (said, word) in self.steps(said, arc[3]) {
                // FINAL is entered only with 0, 2.
                if arc[1] != FINAL || said == ALL {
                    self.enter(number as u32, State { network: arc[1], said }, arc[2], word)?;
                }
            }
        }
        Ok(())
    }

    /// What may have been said after an arc with this phone, or without one.
    fn steps(&self, said: Said, phone: u32) -> Vec<Step> {
        match said {
            _ if phone == 0 => vec![(said, 0)],
            NOTHING if phone == SILENCE => vec![(BETWEEN, 0)],
            BETWEEN => {
                let closing = (phone == SILENCE).then_some((ALL, 0));
                closing.into_iter().chain(self.beginnings(phone)).collect()
            }
            (word, mark) if word > 0 && self.words[word as usize - 1][mark as usize] == phone => {
                vec![(self.after(word, mark + 1), 0)]
            }
            _ => Vec::new(),
        }
    }

    /// The words whose first phone this is, ascending.
    fn beginnings(&self, phone: u32) -> impl Iterator<Item = Step> + '_ {
        let words = (1..).zip(&self.words).filter(move |(_, phones)| phones[0] == phone);
        words.map(|(word, _)| (self.after(word, 1), word))
    }

    /// So many phones of a word; after its last it is said.
    fn after(&self, word: u32, mark: u32) -> Said {
        match self.words[word as usize - 1].len() == mark as usize {
            true => BETWEEN,
            false => (word, mark),
        }
    }

    /// The joined arc; the state that it enters is added just before if it was never reached.
    fn enter(&mut self, from: u32, state: State, model: u32, word: u32) -> Result<(), Refusal> {
        let to = self.number_of(state)?;
        require(self.arcs.len() < self.arc_room, TANGLE)?;
        self.arcs.push([from, to, model, word]);
        Ok(())
    }

    /// States are numbered by first reaching.
    fn number_of(&mut self, state: State) -> Result<u32, Refusal> {
        if let Some(&number) = self.numbers.get(&state) {
            return Ok(number);
        }
        require(self.states.len() < self.state_room, CROWD)?;
        let number = self.states.len() as u32;
        self.numbers.insert(state, number);
        self.states.push(state);
        Ok(number)
    }
}
