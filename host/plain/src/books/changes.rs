//! Books that differ from another one in a single thing, so that they are not the same book in any spelling.

use super::boundary_changes::*;
use super::{Book, Node};
use crate::limits::{MOST_HALF, MOST_MODEL, MOST_NODES, MOST_PHONES, NO_ROOT};
use crate::random::Random;

type Change = fn(&mut Book, &mut Random) -> Option<()>;

/// A change gives nothing where the book has no place for it; another model is always possible.
const CHANGES: [Change; 15] = [
    other_model,
    other_position,
    other_members,
    other_class,
    other_sides,
    question_for_leaf,
    other_half,
    states_for_phones,
    one_phone_more,
    other_roots,
    other_plain,
    one_boundary_more,
    one_boundary_less,
    own_trees_left_out,
    own_trees_added,
];

pub fn changed(book: &Book, random: &mut Random) -> Book {
    loop {
        let mut other = book.clone();
        if random.pick(&CHANGES)(&mut other, random).is_some() {
            return other;
        }
    }
}

/// A leaf's number.
fn any_leaf(book: &Book, random: &mut Random) -> usize {
    let is_leaf = |&node: &usize| matches!(book.nodes[node], Node::Leaf { .. });
    let leaves: Vec<usize> = (0..book.nodes.len()).filter(is_leaf).collect();
    *random.pick(&leaves)
}

/// A question's number, if there is a question.
fn any_question(book: &Book, random: &mut Random) -> Option<usize> {
    let is_question = |&node: &usize| matches!(book.nodes[node], Node::Question { .. });
    let questions: Vec<usize> = (0..book.nodes.len()).filter(is_question).collect();
    (!questions.is_empty()).then(|| *random.pick(&questions))
}

fn other_model(book: &mut Book, random: &mut Random) -> Option<()> {
    let leaf = any_leaf(book, random);
    let Node::Leaf { model } = &mut book.nodes[leaf] else { return None };
    *model = *model % MOST_MODEL + 1;
    Some(())
}

fn other_position(book: &mut Book, random: &mut Random) -> Option<()> {
    let question = any_question(book, random)?;
    let Node::Question { position, .. } = &mut book.nodes[question] else { return None };
    *position = (*position + 1) % (2 * book.half + 1);
    (book.half > 0).then_some(())
}

/// A phone put into a class that is asked about, or taken out.
fn other_members(book: &mut Book, random: &mut Random) -> Option<()> {
    let question = any_question(book, random)?;
    let Node::Question { class, .. } = book.nodes[question] else { return None };
    book.classes[class as usize - 1] ^= 1 << random.below(book.phones as usize);
    Some(())
}

/// One question about another class, with other members.
fn other_class(book: &mut Book, random: &mut Random) -> Option<()> {
    let question = any_question(book, random)?;
    let other = random.between(1, book.classes.len()) as u32;
    let members = book.members(other);
    let Node::Question { class, .. } = &mut book.nodes[question] else { return None };
    let before = std::mem::replace(class, other);
    (book.members(before) != members).then_some(())
}

/// Yes and no exchanged, where they lead to different trees.
fn other_sides(book: &mut Book, random: &mut Random) -> Option<()> {
    let question = any_question(book, random)?;
    let Node::Question { class, position, yes, no } = book.nodes[question] else { return None };
    book.nodes[question] = Node::Question { class, position, yes: no, no: yes };
    (!same_trees(book, yes, no)).then_some(())
}

/// A question in place of a leaf, with the leaf's model on both sides: what the trees give stays the same.
fn question_for_leaf(book: &mut Book, random: &mut Random) -> Option<()> {
    let first_new = book.nodes.len() as u32;
    if book.classes.is_empty() || first_new + 2 > MOST_NODES {
        return None;
    }
    let leaf = any_leaf(book, random);
    let both = [book.nodes[leaf]; 2];
    let class = random.between(1, book.classes.len()) as u32;
    let position = random.below(2 * book.half as usize + 1) as u32;
    book.nodes[leaf] = Node::Question { class, position, yes: first_new, no: first_new + 1 };
    book.nodes.extend(both);
    Some(())
}

/// Another half-width that has all positions asked about.
fn other_half(book: &mut Book, random: &mut Random) -> Option<()> {
    let before = book.half;
    book.half = random.between(0, MOST_HALF as usize) as u32;
    let has_position = |node: &Node| match *node {
        Node::Question { position, .. } => position <= 2 * book.half,
        Node::Leaf { .. } => true,
    };
    (book.half != before && book.nodes.iter().all(has_position)).then_some(())
}

/// The same trees in a row, but for as many phones as there were states, and the other way round.
fn states_for_phones(book: &mut Book, _: &mut Random) -> Option<()> {
    let has_boundaries = (1..=book.phones).any(|phone| book.is_boundary(phone));
    (book.states, book.phones) = (book.phones, book.states);
    book.plains.resize(book.phones as usize, 0);
    // With fewer phones than before, classes could have phones beyond the last.
    (book.states < book.phones && !has_boundaries).then_some(())
}

fn one_phone_more(book: &mut Book, _: &mut Random) -> Option<()> {
    let first_new = book.nodes.len() as u32;
    if book.phones == MOST_PHONES || first_new + book.states > MOST_NODES {
        return None;
    }
    book.phones += 1;
    book.plains.push(0);
    book.roots.extend((0..book.states).map(|state| first_new + state));
    book.nodes.extend((0..book.states).map(|_| Node::Leaf { model: 1 }));
    Some(())
}

/// Two trees that differ, exchanged.
fn other_roots(book: &mut Book, random: &mut Random) -> Option<()> {
    let given: Vec<usize> = (0..book.roots.len()).filter(|&place| book.roots[place] != NO_ROOT).collect();
    let (one, other) = (*random.pick(&given), *random.pick(&given));
    let differ = !same_trees(book, book.roots[one], book.roots[other]);
    book.roots.swap(one, other);
    differ.then_some(())
}

/// Whether two nodes have the same below them: shape, positions, members, models.
fn same_trees(book: &Book, one: u32, other: u32) -> bool {
    match (book.nodes[one as usize], book.nodes[other as usize]) {
        (Node::Leaf { model }, Node::Leaf { model: other }) => model == other,
        (
            Node::Question { class, position, yes, no },
            Node::Question { class: other_class, position: other_position, yes: other_yes, no: other_no },
        ) => {
            position == other_position
                && book.members(class) == book.members(other_class)
                && same_trees(book, yes, other_yes)
                && same_trees(book, no, other_no)
        }
        _ => false,
    }
}
