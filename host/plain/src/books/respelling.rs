//! Other spellings of a book: the same trees and plain phones, with other numbers for nodes and classes.

use super::{all_phones, Book, Node};
use crate::limits::{MOST_CLASSES, NO_ROOT};
use crate::random::Random;

/// Nodes in any order in which children follow their nodes. Classes in any order, some of them several times, and some
/// that no question asks about.
pub fn respelled(book: &Book, random: &mut Random) -> Book {
    let classes = other_classes(book, random);
    let order = any_order(book, random);
    let mut numbers = vec![0; order.len()];
    for (number, &node) in (0..).zip(&order) {
        numbers[node as usize] = number;
    }
    let mut respell = |&node: &u32| match book.nodes[node as usize] {
        Node::Question { class, position, yes, no } => Node::Question {
            class: any_class(&classes, book.members(class), random),
            position,
            yes: numbers[yes as usize],
            no: numbers[no as usize],
        },
        leaf => leaf,
    };
    let nodes = order.iter().map(&mut respell).collect();
    let number_of = |&root: &u32| numbers.get(root as usize).copied().unwrap_or(NO_ROOT);
    let roots = book.roots.iter().map(number_of).collect();
    Book { classes, nodes, roots, plains: book.plains.clone(), ..*book }
}

/// The nodes in their new order.
fn any_order(book: &Book, random: &mut Random) -> Vec<u32> {
    let mut order = Vec::new();
    let mut waiting: Vec<u32> = book.roots.iter().copied().filter(|&root| root != NO_ROOT).collect();
    while !waiting.is_empty() {
        let node = waiting.swap_remove(random.below(waiting.len()));
        order.push(node);
        if let Node::Question { yes, no, .. } = book.nodes[node as usize] {
            waiting.extend([yes, no]);
        }
    }
    order
}

/// All members that some question asks for, and as many more classes as chance will have: copies of these, or any.
fn other_classes(book: &Book, random: &mut Random) -> Vec<u64> {
    let mut classes = asked_for(book);
    let room = MOST_CLASSES as usize - classes.len();
    let most_added = *random.pick(&[0, 3, 10, room]);
    for _ in 0..random.between(0, most_added.min(room)) {
        let added = match random.percent(60) && !classes.is_empty() {
            true => *random.pick(&classes),
            false => random.word() & random.word() & all_phones(book.phones),
        };
        classes.insert(random.below(classes.len() + 1), added);
    }
    for place in 1..classes.len() {
        classes.swap(place, random.below(place + 1));
    }
    classes
}

/// The members that questions ask for, each once.
fn asked_for(book: &Book) -> Vec<u64> {
    let mut sets = Vec::new();
    for node in &book.nodes {
        if let Node::Question { class, .. } = node {
            sets.push(book.members(*class));
        }
    }
    sets.sort_unstable();
    sets.dedup();
    sets
}

/// The number of a class with these members.
fn any_class(classes: &[u64], members: u64, random: &mut Random) -> u32 {
    let alike: Vec<u32> = (1..).zip(classes).filter(|(_, &class)| class == members).map(|(number, _)| number).collect();
    *random.pick(&alike)
}
