//! Gives the nodes of a book's trees their numbers: a child's number is greater than its node's.

use super::trees::Tree;
use super::{Book, Node};
use crate::random::Random;

/// The header's numbers and classes that trees are planted into.
pub struct Ground {
    pub half: u32,
    pub states: u32,
    pub phones: u32,
    pub classes: Vec<u64>,
}

/// A tree that waits for its number, and where that number is then written.
struct Waiting<'a> {
    tree: &'a Tree,
    named_by: NamedBy,
}

enum NamedBy {
    Root(usize),
    Yes(usize),
    No(usize),
}

impl Ground {
    /// Depth first, tree after tree, each leaf with a model of its own.
    pub fn plant(self, trees: &[Tree]) -> Book {
        let mut next_model = 0;
        self.number(trees, |waiting| waiting - 1, || {
            next_model += 1;
            next_model
        })
    }

    /// In a random order in which children follow their nodes, with random models, so that leaves may share one.
    pub fn plant_anyhow(self, trees: &[Tree], random: &mut Random) -> Book {
        let models = *random.pick(&[1, 2, 20, 65535]);
        let mut order = Random::new(random.word());
        let mut model = Random::new(random.word());
        self.number(trees, |waiting| order.below(waiting), || model.between(1, models) as u32)
    }

    /// Takes the waiting tree that `choose` names until none waits.
    fn number(self, trees: &[Tree], mut choose: impl FnMut(usize) -> usize, mut model: impl FnMut() -> u32) -> Book {
        let Ground { half, states, phones, classes } = self;
        let (roots, plains) = (vec![0; trees.len()], vec![0; phones as usize]);
        let mut book = Book { half, states, phones, classes, nodes: Vec::new(), roots, plains };
        let mut waiting: Vec<Waiting> = trees
            .iter()
            .enumerate()
            .rev()
            .map(|(place, tree)| Waiting { tree, named_by: NamedBy::Root(place) })
            .collect();
        while !waiting.is_empty() {
            let chosen = waiting.remove(choose(waiting.len()));
            let number = book.nodes.len();
            book.name(&chosen.named_by, number as u32);
            match chosen.tree {
                Tree::Leaf => book.nodes.push(Node::Leaf { model: model() }),
                Tree::Question { class, position, yes, no } => {
                    book.nodes.push(Node::Question { class: *class, position: *position, yes: 0, no: 0 });
                    waiting.push(Waiting { tree: no, named_by: NamedBy::No(number) });
                    waiting.push(Waiting { tree: yes, named_by: NamedBy::Yes(number) });
                }
            }
        }
        book
    }
}

impl Book {
    fn name(&mut self, named_by: &NamedBy, number: u32) {
        match *named_by {
            NamedBy::Root(place) => self.roots[place] = number,
            NamedBy::Yes(parent) => {
                if let Node::Question { yes, .. } = &mut self.nodes[parent] {
                    *yes = number;
                }
            }
            NamedBy::No(parent) => {
                if let Node::Question { no, .. } = &mut self.nodes[parent] {
                    *no = number;
                }
            }
        }
    }
}
