//! Round trips: a network written and read again is the same network, text read and written again the same text.
//! The library makes the trip; what it should bring back is what was lent.

use super::arcs::OwnNetwork;
use super::networks::text_of;
use super::Case;
use crate::lending::Lent;
use crate::lengths::enough;
use crate::outcome::{Outcome, Side};
use plain::limits::LINE;
use plain::random::Random;

struct RoundTrip {
    network: OwnNetwork,
}

pub fn case(random: &mut Random) -> Box<dyn Case> {
    let mut network = OwnNetwork::known(random);
    let length = enough(random, network.arcs.len());
    network.arcs.resize(length, 0);
    Box::new(RoundTrip { network })
}

impl Case for RoundTrip {
    fn entry(&self) -> &'static str {
        "round trips"
    }

    fn call(&self, side: Side) -> Outcome {
        let OwnNetwork { counts, arcs } = &self.network;
        let mut text = Lent::garbage(LINE * (counts.arcs as usize + 1));
        let mut again = Lent::garbage(arcs.len());
        let mut text_again = Lent::garbage(text.part().len());
        if side == Side::Library {
            fulgwerz::write(*counts, arcs, text.part());
            let read = fulgwerz::read_network(text.part(), again.part());
            fulgwerz::write(read.counts, again.part(), text_again.part());
            Outcome::new(read.fault, read.counts)
        } else {
            text.part().copy_from_slice(&text_of(&self.network));
            again.part().copy_from_slice(arcs);
            text_again.part().copy_from_slice(text.part());
            Outcome::new(0, counts)
        }
        .with("text", text)
        .with("arcs read again", again)
        .with("text written again", text_again)
    }

    fn input(&self) -> String {
        format!("  {:?}", self.network)
    }
}
