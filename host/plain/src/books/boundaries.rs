//! Boundary phones: books in which some phones take the trees of others.

use super::{Book, Node};
use crate::limits::NO_ROOT;
use crate::random::Random;

/// Makes some phones boundary phones, with R lines of their own or without.
pub fn with_boundaries(mut book: Book, random: &mut Random) -> Book {
    let share = *random.pick(&[15, 50, 50, 100]);
    let with_own_trees = *random.pick(&[0, 0, 50, 100]);
    let boundaries: Vec<u32> = (2..=book.phones).filter(|_| random.percent(share)).collect();
    let plains: Vec<u32> = (1..=book.phones).filter(|phone| !boundaries.contains(phone)).collect();
    for phone in boundaries {
        book.plains[phone as usize - 1] = *random.pick(&plains);
        if !random.percent(with_own_trees) {
            book.own_roots(phone).fill(NO_ROOT);
        }
    }
    book.drop_unreached();
    book
}

/// All phones but silence take silence's trees, with R lines of their own or without.
pub fn all_like_silence(mut book: Book, with_own_trees: bool) -> Book {
    for phone in 2..=book.phones {
        book.plains[phone as usize - 1] = 1;
        if !with_own_trees {
            book.own_roots(phone).fill(NO_ROOT);
        }
    }
    book.drop_unreached();
    book
}

impl Book {
    pub fn is_boundary(&self, phone: u32) -> bool {
        self.plains[phone as usize - 1] != 0
    }

    /// The roots in a phone's R lines.
    pub fn own_roots(&mut self, phone: u32) -> &mut [u32] {
        let states = self.states as usize;
        &mut self.roots[(phone as usize - 1) * states..][..states]
    }

    /// Takes away the nodes that no root leads to; the others keep their order. Children follow their nodes.
    pub fn drop_unreached(&mut self) {
        let mut reached = vec![false; self.nodes.len()];
        self.roots.iter().filter(|&&root| root != NO_ROOT).for_each(|&root| reached[root as usize] = true);
        for number in 0..reached.len() {
            if let (true, Node::Question { yes, no, .. }) = (reached[number], self.nodes[number]) {
                reached[yes as usize] = true;
                reached[no as usize] = true;
            }
        }
        let number_of = |old: u32| reached[..old as usize].iter().filter(|&&kept| kept).count() as u32;
        let mut kept = reached.iter();
        self.nodes.retain(|_| *kept.next().expect("one for each node"));
        for node in &mut self.nodes {
            if let Node::Question { yes, no, .. } = node {
                (*yes, *no) = (number_of(*yes), number_of(*no));
            }
        }
        for root in self.roots.iter_mut().filter(|root| **root != NO_ROOT) {
            *root = number_of(*root);
        }
    }
}
