//! Reading network text: as it is written, and damaged.

use super::arcs::OwnNetwork;
use super::Case;
use crate::damage::damage;
use crate::lending::Lent;
use crate::lengths::{around, enough};
use crate::outcome::{Outcome, Side};
use plain::limits::{ARC, LINE};
use plain::random::Random;

pub struct ReadingNetwork {
    pub text: Vec<u8>,
    pub arcs: usize,
}

pub fn case(random: &mut Random) -> Box<dyn Case> {
    let network = OwnNetwork::known(random);
    let mut text = text_of(&network);
    let arcs = match random.percent(80) {
        true => enough(random, network.arcs.len()),
        false => around(random, network.arcs.len() / ARC, ARC),
    };
    if random.percent(75) {
        damage(random, &mut text);
    }
    Box::new(ReadingNetwork { text, arcs })
}

pub fn text_of(network: &OwnNetwork) -> Vec<u8> {
    let mut text = vec![0; LINE * (network.counts.arcs as usize + 1)];
    let answer = plain::write(network.counts, &network.arcs, &mut text);
    assert_eq!(answer.fault, 0, "a known network is refused: {network:?}");
    text
}

impl Case for ReadingNetwork {
    fn entry(&self) -> &'static str {
        "read_network"
    }

    fn call(&self, side: Side) -> Outcome {
        let read_network = if side == Side::Library { fulgwerz::read_network } else { plain::read_network };
        let mut text = Lent::holding(&self.text);
        let mut arcs = Lent::garbage(self.arcs);
        let answer = read_network(text.part(), arcs.part());
        Outcome::new(answer.fault, answer).with("text", text).with("arcs", arcs)
    }

    fn input(&self) -> String {
        let lines: Vec<String> = self.text.chunks(LINE).map(|line| format!("    {}", line.escape_ascii())).collect();
        format!("  words lent for arcs: {}\n  text:\n{}", self.arcs, lines.join("\n"))
    }
}
