//! The leaf that a context reaches, over the table of node words and over a list of node structs.

use super::foreign_tables::near;
use super::tables::OwnTables;
use super::Case;
use crate::outcome::{Outcome, Side};
use crate::lending::Lent;
use fulgwerz::Node;
use plain::limits::NODE;
use plain::random::Random;

pub struct Lookup {
    pub tables: OwnTables,
    pub root: u32,
    pub context: Vec<u32>,
    pub in_list: bool,
}

pub fn case(random: &mut Random) -> Box<dyn Case> {
    let mut tables = OwnTables::known(random);
    let header = tables.header;
    let mut root = random.below(header.nodes as usize) as u32;
    let phone = |random: &mut Random| random.between(1, header.phones as usize) as u32;
    let mut context: Vec<u32> = (0..=2 * header.half).map(|_| phone(random)).collect();
    if random.percent(8) {
        root = near(random, header.nodes);
    }
    if random.percent(15) {
        context.pop();
    }
    if random.percent(15) {
        context.push(phone(random));
    }
    if random.percent(15) && !context.is_empty() {
        let at = random.below(context.len());
        context[at] = *random.pick(&[0, header.phones + 1, header.phones, 64, 65, u32::MAX]);
    }
    if random.percent(30) {
        tables.change(random);
    }
    let in_list = random.percent(40);
    Box::new(Lookup { tables, root, context, in_list })
}

/// The whole records of a node table.
fn structs(words: &[u32]) -> Vec<Node> {
    let node = |five: &[u32]| Node { kind: five[0], value: five[1], position: five[2], yes: five[3], no: five[4] };
    words.chunks_exact(NODE).map(node).collect()
}

impl Case for Lookup {
    fn entry(&self) -> &'static str {
        if self.in_list {
            "leaf_in_list"
        } else {
            "leaf"
        }
    }

    fn call(&self, side: Side) -> Outcome {
        let mut lent = self.tables.lend();
        let mut context = Lent::holding(&self.context);
        let answer = if self.in_list {
            let leaf = if side == Side::Library { fulgwerz::leaf_in_list } else { plain::leaf_in_list };
            let nodes = structs(lent.nodes.part());
            leaf(self.tables.header, &nodes, lent.classes.part(), self.root, context.part())
        } else {
            let leaf = if side == Side::Library { fulgwerz::leaf } else { plain::leaf };
            leaf(self.tables.header, lent.nodes.part(), lent.classes.part(), self.root, context.part())
        };
        Outcome::new(answer.fault, answer)
            .with("nodes", lent.nodes)
            .with("classes", lent.classes)
            .with("context", context)
    }

    fn input(&self) -> String {
        format!("  {:?}\n  root {}, context {:?}", self.tables, self.root, self.context)
    }
}
