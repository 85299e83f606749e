//! Joining: built networks and any that the reader leaves, with words in which most things happen.

use super::arcs::OwnNetwork;
use super::word_tables::OwnWords;
use super::Case;
use crate::lending::Lent;
use crate::lengths::around;
use crate::outcome::{Outcome, Side};
use fulgwerz::{Counts, Joined, Words};
use plain::limits::{ARC, JOINED};
use plain::random::Random;
use plain::word_books::random_words::random_words;

pub struct Joining {
    /// What it is counted by.
    pub name: &'static str,
    pub network: OwnNetwork,
    pub words: OwnWords,
    /// The words lent for joined states, and for joined arcs.
    pub lent: [usize; 2],
}

pub fn case(random: &mut Random) -> Box<dyn Case> {
    let (mut name, mut network) = match random.below(10) {
        0 => ("join any", OwnNetwork::known(random)),
        1..=4 => match OwnNetwork::built(random) {
            Some(network) => ("join built", network),
            None => ("join any", OwnNetwork::known(random)),
        },
        _ => ("join crowded", OwnNetwork::crowded(random)),
    };
    let phones = network.arcs.chunks_exact(ARC).map(|arc| arc[3]).max().unwrap_or(1);
    let book = random_words(random, phones);
    let beyond = if random.percent(40) { random.below(140) } else { 0 };
    let mut words = OwnWords::of(&book, beyond);
    let lent = room(random, &network, words.words());
    if random.percent(20) {
        name = "join foreign";
        match random.below(5) {
            0 => network.change(random),
            1 => {
                network.change(random);
                words.change(random);
            }
            _ => words.change(random),
        }
    }
    Box::new(Joining { name, network, words, lent })
}

/// Room around what the join needs, or ample room: little, so that a case stays short, but now and then ten times as
/// much.
fn room(random: &mut Random, network: &OwnNetwork, words: Words) -> [usize; 2] {
    let times = if random.below(200) == 0 { 10 } else { 1 };
    let most = [JOINED * 800 * times, ARC * 4000 * times];
    if random.percent(20) {
        return most;
    }
    let (mut states, mut arcs) = (vec![0; most[0]], vec![0; most[1]]);
    let space = Joined { states: &mut states, arcs: &mut arcs };
    let answer = plain::fast::join(network.counts, &network.arcs, words, space);
    let need = match answer.fault {
        0 => [answer.states, answer.arcs],
        _ => [random.below(800), random.below(4000)],
    };
    [around(random, need[0], JOINED).min(most[0]), around(random, need[1], ARC).min(most[1])]
}

impl OwnNetwork {
    /// Arcs that the reader takes and no build leaves: many between few states, also from FINAL and to INITIAL, in
    /// circles without phone or model, and with a phone into FINAL.
    pub fn crowded(random: &mut Random) -> OwnNetwork {
        let (states, metastates) = (random.between(1, 2) as u32, random.between(1, 3) as u32);
        let end = (2 + states * metastates) as usize;
        let mut sources: Vec<usize> = (0..random.between(1, 36)).map(|_| random.below(end)).collect();
        sources.sort_unstable();
        let arc = |source: usize| {
            let model = if random.percent(20) { 0 } else { random.between(1, 9) };
            let phone = match source {
                // So that most have a way out of INITIAL.
                0 if random.percent(60) => 1,
                _ => *random.pick(&[0, 0, 1, 1, 1, 2, 2, 2, 3]),
            };
            [source, random.below(end), model, phone].map(|number| number as u32)
        };
        let arcs: Vec<u32> = sources.into_iter().flat_map(arc).collect();
        OwnNetwork { counts: Counts { states, metastates, arcs: (arcs.len() / ARC) as u32 }, arcs }
    }
}

impl Case for Joining {
    fn entry(&self) -> &'static str {
        self.name
    }

    fn others(&self) -> &'static [Side] {
        &[Side::Plain, Side::Fast]
    }

    fn call(&self, side: Side) -> Outcome {
        let join = match side {
            Side::Library => fulgwerz::join,
            Side::Plain => plain::join,
            Side::Fast => plain::fast::join,
        };
        let mut arcs = Lent::holding(&self.network.arcs);
        let mut table = Lent::holding(&self.words.table);
        let mut states = Lent::garbage(self.lent[0]);
        let mut joined = Lent::garbage(self.lent[1]);
        let words = Words { count: self.words.count, table: table.part() };
        let space = Joined { states: states.part(), arcs: joined.part() };
        let answer = join(self.network.counts, arcs.part(), words, space);
        Outcome::new(answer.fault, answer)
            .with("arcs", arcs)
            .with("words", table)
            .with("joined states", states)
            .with("joined arcs", joined)
    }

    fn input(&self) -> String {
        format!("  {:?}\n  {:?}\n  words lent for joined states and arcs: {:?}", self.network, self.words, self.lent)
    }
}
