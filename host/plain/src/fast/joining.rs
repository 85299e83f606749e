//! Joining in number order: joined states in a hash map, words by their first phone, arcs by the state they leave.

use super::hashing::FastHash;
use crate::limits::{ARC, JOINED, MOST_ARCS, MOST_JOINED, MOST_PHONES, WORD};
use crate::refusal::{refuse, Refusal, CROWD, TANGLE};
use fulgwerz::{Counts, Joined, Words};
use std::collections::hash_map::Entry;
use std::collections::HashMap;

const FINAL: u32 = 1;
const SILENCE: u32 = 1;

/// A word, or 0, and a mark.
type Said = (u32, u32);

const NOTHING: Said = (0, 0);
const BETWEEN: Said = (0, 1);
const ALL: Said = (0, 2);

/// Writes the joined states and arcs into the lent space; answers how many there are.
pub fn join(counts: Counts, arcs: &[u32], words: Words, space: Joined) -> Result<(usize, usize), Refusal> {
    let offsets = offsets(counts, arcs);
    let beginnings = Beginnings::new(words);
    let state_room = (space.states.len() / JOINED).min(MOST_JOINED);
    let mut network = Network {
        numbers: HashMap::with_capacity_and_hasher(state_room, FastHash::default()),
        states: space.states,
        state_room,
        arc_room: (space.arcs.len() / ARC).min(MOST_ARCS),
        arcs: space.arcs,
        arc_count: 0,
    };
    network.number_of(0, NOTHING)?;
    network.number_of(FINAL, ALL)?;
    let mut from = 0;
    while from < network.numbers.len() {
        let state = network.states[JOINED * from] as usize;
        let leaving = &arcs[ARC * offsets[state] as usize..ARC * offsets[state + 1] as usize];
        network.expand(from, leaving, words.table, &beginnings)?;
        from += 1;
    }
    Ok((network.numbers.len(), network.arc_count))
}

/// Where the arcs of each state begin; one more at the end.
fn offsets(counts: Counts, arcs: &[u32]) -> Vec<u32> {
    let end = (2 + counts.states * counts.metastates) as usize;
    let mut offsets = vec![0; end + 1];
    for arc in arcs[..ARC * counts.arcs as usize].chunks_exact(ARC) {
        offsets[arc[0] as usize + 1] += 1;
    }
    for state in 0..end {
        offsets[state + 1] += offsets[state];
    }
    offsets
}

/// The words by their first phone, ascending, with what is said after that phone.
struct Beginnings {
    words: Vec<(u32, Said)>,
    /// Where those of each phone begin; one more at the end.
    offsets: [usize; MOST_PHONES as usize + 2],
}

impl Beginnings {
    fn new(words: Words) -> Beginnings {
        let records = || (1..).zip(words.table.chunks_exact(WORD).take(words.count));
        let mut offsets = [0; MOST_PHONES as usize + 2];
        records().for_each(|(_, record)| offsets[record[1] as usize + 1] += 1);
        for phone in 0..=MOST_PHONES as usize {
            offsets[phone + 1] += offsets[phone];
        }
        let mut next = offsets;
        let mut sorted = vec![(0, NOTHING); words.count];
        for (word, record) in records() {
            let place = &mut next[record[1] as usize];
            sorted[*place] = (word, if record[0] == 1 { BETWEEN } else { (word, 1) });
            *place += 1;
        }
        Beginnings { words: sorted, offsets }
    }

    fn with(&self, phone: u32) -> &[(u32, Said)] {
        &self.words[self.offsets[phone as usize]..self.offsets[phone as usize + 1]]
    }
}

struct Network<'a> {
    numbers: HashMap<u64, u32, FastHash>,
    states: &'a mut [u32],
    state_room: usize,
    arcs: &'a mut [u32],
    arc_room: usize,
    arc_count: usize,
}

impl Network<'_> {
    /// The joined arcs that leave a state.
    fn expand(
        &mut self, from: usize, leaving: &[u32], table: &[u32], beginnings: &Beginnings,
    ) -> Result<(), Refusal> {
        let said = (self.states[JOINED * from + 1], self.states[JOINED * from + 2]);
        let (wanted, then) = next_phone(said, table);
        let from = from as u32;
        for arc in leaving.chunks_exact(ARC) {
            let (to, model, phone) = (arc[1], arc[2], arc[3]);
            if phone == 0 {
                self.enter(from, to, said, model, 0)?;
                continue;
            }
            if phone == wanted {
                self.enter(from, to, then, model, 0)?;
            }
            if said == BETWEEN && to != FINAL {
                for &(word, after) in beginnings.with(phone) {
                    self.enter(from, to, after, model, word)?;
                }
            }
        }
        Ok(())
    }

    /// The joined arc, unless it would enter FINAL before all is said.
    #[inline]
    fn enter(&mut self, from: u32, state: u32, said: Said, model: u32, word: u32) -> Result<(), Refusal> {
        if state == FINAL && said != ALL {
            return Ok(());
        }
        let to = self.number_of(state, said)?;
        if self.arc_count == self.arc_room {
            return refuse(TANGLE);
        }
        self.arcs[ARC * self.arc_count..][..ARC].copy_from_slice(&[from, to, model, word]);
        self.arc_count += 1;
        Ok(())
    }

    /// The number of a state; a new one is added.
    #[inline]
    fn number_of(&mut self, state: u32, (word, mark): Said) -> Result<u32, Refusal> {
        let count = self.numbers.len();
        match self.numbers.entry(u64::from(state) << 32 | u64::from(word) << 8 | u64::from(mark)) {
            Entry::Occupied(known) => Ok(*known.get()),
            Entry::Vacant(_) if count == self.state_room => refuse(CROWD),
            Entry::Vacant(new) => {
                self.states[JOINED * count..][..JOINED].copy_from_slice(&[state, word, mark]);
                Ok(*new.insert(count as u32))
            }
        }
    }
}

/// The phone that leads on without beginning a word, or 0 where there is none, and what is said after it.
fn next_phone(said: Said, table: &[u32]) -> (u32, Said) {
    match said {
        NOTHING => (SILENCE, BETWEEN),
        BETWEEN => (SILENCE, ALL),
        (0, _) => (0, ALL),
        (word, mark) => {
            let record = &table[WORD * (word as usize - 1)..][..WORD];
            let after = if mark + 1 == record[0] { BETWEEN } else { (word, mark + 1) };
            (record[1 + mark as usize], after)
        }
    }
}
