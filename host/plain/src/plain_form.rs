//! The plain form of a book (document 02, P1): the same text for all books with the same trees and plain phones.
//!
//! The trees are taken out of the tables as values, in which neither nodes nor classes have numbers. Then they are
//! written down and numbered anew. B lines stay as they are, and R lines that are left out stay so.

use crate::books::text::line;
use crate::buffers::{clear, fill};
use crate::foreign::tables_known;
use crate::limits::{LEAF, NODE, NO_ROOT};
use crate::refusal::*;
use fulgwerz::{CountAnswer, Header, Tables};
use std::collections::BTreeSet;

type Phones = BTreeSet<u32>;

/// A tree by itself: its shape, and for each question position and members, for each leaf its model.
enum Tree {
    Question { members: Phones, position: u32, yes: Box<Tree>, no: Box<Tree> },
    Leaf { model: u32 },
}

/// Writes the plain form of the book in the tables.
pub fn write_book(header: Header, tables: Tables, text: &mut [u8]) -> CountAnswer {
    let written = require(tables_known(header, tables), FOREIGN).and_then(|()| {
        let plain = plain_form(header, tables);
        require(plain.len() <= text.len(), SHORT).map(|()| plain)
    });
    match written {
        Ok(plain) => {
            fill(text, plain.as_bytes());
            CountAnswer { fault: 0, line: 0, count: plain.len() }
        }
        Err(Refusal { fault, line }) => {
            clear(text);
            CountAnswer { fault, line, count: 0 }
        }
    }
}

fn plain_form(header: Header, tables: Tables) -> String {
    let Header { half, states, phones, .. } = header;
    let trees = trees_of(header, tables);
    let mut classes = Vec::new();
    trees.iter().for_each(|(_, tree)| tree.collect_classes(&mut classes));
    let nodes = trees.iter().map(|(_, tree)| tree.size()).sum();

    let mut text = String::new();
    line(&mut text, 'H', &[half, states, phones, classes.len() as u32, nodes]);
    for (class, members) in (1..).zip(&classes) {
        members.iter().for_each(|&phone| line(&mut text, 'Q', &[class, phone]));
    }
    let mut next = 0;
    let mut root_lines = String::new();
    for ((phone, state), tree) in &trees {
        tree.write(&mut text, &classes, next);
        line(&mut root_lines, 'R', &[*phone, *state, next]);
        next += tree.size();
    }
    for (phone, &plain) in (1..=phones).zip(tables.plains).filter(|(_, &plain)| plain != 0) {
        line(&mut text, 'B', &[phone, plain]);
    }
    text + &root_lines
}

/// The trees of the R lines, each with its phone and state, in their order; also those that are not in force.
fn trees_of(header: Header, tables: Tables) -> Vec<((u32, u32), Tree)> {
    let Header { states, phones, .. } = header;
    let places = (1..=phones).flat_map(|phone| (1..=states).map(move |state| (phone, state)));
    let given = places.zip(tables.roots).filter(|(_, &root)| root != NO_ROOT);
    given.map(|(place, &root)| (place, tree_at(header, tables, root))).collect()
}

fn tree_at(header: Header, tables: Tables, node: u32) -> Tree {
    let [kind, value, position, yes, no] =
        tables.nodes[NODE * node as usize..][..NODE].try_into().expect("five words");
    if kind == LEAF {
        return Tree::Leaf { model: value };
    }
    let set = tables.classes[value as usize - 1];
    Tree::Question {
        members: (1..=header.phones).filter(|phone| set >> (phone - 1) & 1 == 1).collect(),
        position,
        yes: Box::new(tree_at(header, tables, yes)),
        no: Box::new(tree_at(header, tables, no)),
    }
}

impl Tree {
    /// How many nodes it has.
    fn size(&self) -> u32 {
        match self {
            Tree::Leaf { .. } => 1,
            Tree::Question { yes, no, .. } => 1 + yes.size() + no.size(),
        }
    }

    /// Adds what its questions ask for, each set once, by first use: a question, then its yes, then its no.
    fn collect_classes(&self, classes: &mut Vec<Phones>) {
        if let Tree::Question { members, yes, no, .. } = self {
            if !classes.contains(members) {
                classes.push(members.clone());
            }
            yes.collect_classes(classes);
            no.collect_classes(classes);
        }
    }

    /// Writes its nodes, of which the root has this number: the yes side comes next, the no side after all of that.
    fn write(&self, text: &mut String, classes: &[Phones], number: u32) {
        match self {
            Tree::Leaf { model } => line(text, 'L', &[number, *model]),
            Tree::Question { members, position, yes, no } => {
                let class = 1 + classes.iter().position(|class| class == members).expect("collected before") as u32;
                let yes_node = number + 1;
                let no_node = yes_node + yes.size();
                line(text, 'N', &[number, class, *position, yes_node, no_node]);
                yes.write(text, classes, yes_node);
                no.write(text, classes, no_node);
            }
        }
    }
}
