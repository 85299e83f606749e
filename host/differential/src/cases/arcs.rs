//! Networks as they are lent: the arcs that leave a state, and the text of a network.

use super::foreign_tables::{change_length, near};
use super::tables::OwnTables;
use super::Case;
use crate::lending::Lent;
use crate::lengths::around;
use crate::outcome::{Outcome, Side};
use fulgwerz::{Counts, Space};
use plain::limits::*;
use plain::random::Random;

#[derive(Clone, Debug)]
pub struct OwnNetwork {
    pub counts: Counts,
    pub arcs: Vec<u32>,
}

impl OwnNetwork {
    /// One that a build or the reader could leave.
    pub fn known(random: &mut Random) -> OwnNetwork {
        let built = if random.percent(50) { OwnNetwork::built(random) } else { None };
        built.unwrap_or_else(|| OwnNetwork::any(random))
    }

    /// A random book's, finished or stopped.
    pub fn built(random: &mut Random) -> Option<OwnNetwork> {
        let tables = OwnTables::known(random);
        let (mut combinations, mut metastates) = (vec![0; COMBINATION * 300], vec![0; METASTATE * 100]);
        let mut arcs = vec![0; ARC * 500];
        let space = Space { combinations: &mut combinations, metastates: &mut metastates, arcs: &mut arcs };
        let turn_limit = if random.percent(50) { u32::MAX } else { random.below(20) as u32 };
        let answer = plain::fast::build(tables.header, tables.tables(), space, turn_limit);
        arcs.truncate(ARC * answer.counts.arcs as usize);
        (answer.fault == 0).then_some(OwnNetwork { counts: answer.counts, arcs })
    }

    /// Any arcs in range whose sources ascend.
    fn any(random: &mut Random) -> OwnNetwork {
        let states = random.between(1, 3) as u32;
        let metastates = *random.pick(&[1, 2, 5, 30, 3000, MOST_METASTATES as u32]);
        let end = (2 + states * metastates) as usize;
        let count = random.between(1, 40);
        let mut sources: Vec<usize> = (0..count).map(|_| random.below(end)).collect();
        sources.sort_unstable();
        let mut arcs = Vec::new();
        for source in sources {
            let (target, model) = (random.below(end), random.below(MOST_MODEL as usize + 1));
            arcs.extend([source, target, model, random.below(65)].map(|number| number as u32));
        }
        OwnNetwork { counts: Counts { states, metastates, arcs: count as u32 }, arcs }
    }

    /// Changes a count, a word or the length; what comes out is foreign in most cases.
    pub fn change(&mut self, random: &mut Random) {
        let arcs = self.arcs.len() / ARC;
        match random.below(5) {
            0 => {
                let Counts { states, metastates, arcs } = &mut self.counts;
                let place = random.below(3);
                let number = [states, metastates, arcs].into_iter().nth(place).expect("three numbers");
                *number = near(random, *number);
            }
            1 => change_length(random, &mut self.arcs),
            2 if arcs > 0 => {
                let (one, other) = (ARC * random.below(arcs), ARC * random.below(arcs));
                (0..ARC).for_each(|word| self.arcs.swap(one + word, other + word));
            }
            _ if arcs > 0 => {
                let (at, end) = (random.below(self.arcs.len()), 2 + self.counts.states * self.counts.metastates);
                let limit = *random.pick(&[end, self.arcs[at], MOST_MODEL, MOST_PHONES]);
                self.arcs[at] = near(random, limit);
            }
            _ => {}
        }
    }

    fn lent(random: &mut Random) -> OwnNetwork {
        let mut network = OwnNetwork::known(random);
        if random.percent(40) {
            network.arcs.resize(network.arcs.len() + random.below(10), 0);
        }
        if random.percent(40) {
            network.change(random);
        }
        network
    }
}

pub struct Leaving {
    pub network: OwnNetwork,
    pub state: u32,
}

pub fn leaving_case(random: &mut Random) -> Box<dyn Case> {
    let network = OwnNetwork::lent(random);
    let end = network.counts.states.wrapping_mul(network.counts.metastates).wrapping_add(2);
    let state = match random.below(8) {
        0..=3 if network.arcs.len() >= ARC => network.arcs[ARC * random.below(network.arcs.len() / ARC)],
        4 => random.below(4) as u32,
        5 | 6 => random.below(end.max(1) as usize) as u32,
        _ => *random.pick(&[end.wrapping_sub(1), end, end.wrapping_add(1), u32::MAX]),
    };
    Box::new(Leaving { network, state })
}

impl Case for Leaving {
    fn entry(&self) -> &'static str {
        "leaving"
    }

    fn call(&self, side: Side) -> Outcome {
        let leaving = if side == Side::Library { fulgwerz::leaving } else { plain::leaving };
        let mut arcs = Lent::holding(&self.network.arcs);
        let answer = leaving(self.network.counts, arcs.part(), self.state);
        Outcome::new(answer.fault, answer).with("arcs", arcs)
    }

    fn input(&self) -> String {
        format!("  {:?}\n  state {}", self.network, self.state)
    }
}

pub struct Writing {
    pub network: OwnNetwork,
    pub text: usize,
}

pub fn write_case(random: &mut Random) -> Box<dyn Case> {
    let network = OwnNetwork::lent(random);
    let text = around(random, network.arcs.len() / ARC + 1, LINE);
    Box::new(Writing { network, text })
}

impl Case for Writing {
    fn entry(&self) -> &'static str {
        "write"
    }

    fn call(&self, side: Side) -> Outcome {
        let write = if side == Side::Library { fulgwerz::write } else { plain::write };
        let mut arcs = Lent::holding(&self.network.arcs);
        let mut text = Lent::garbage(self.text);
        let answer = write(self.network.counts, arcs.part(), text.part());
        Outcome::new(answer.fault, answer).with("arcs", arcs).with("text", text)
    }

    fn input(&self) -> String {
        format!("  {:?}\n  bytes lent for text: {}", self.network, self.text)
    }
}
