//! Random valid books of all widths and shapes, most of them small, many of them with boundary phones, and some whose
//! leaf pairs have nothing in common.

use super::boundaries::{all_like_silence, with_boundaries};
use super::numbering::Ground;
use super::recipes::apart;
use super::respelling::respelled;
use super::trees::{grow, Tree};
use super::{all_phones, Book};
use crate::limits::{MOST_CLASSES, MOST_NODES};
use crate::random::Random;

pub fn random_book(random: &mut Random) -> Book {
    if random.percent(5) {
        return random_apart(random);
    }
    let half = random.between(0, 3) as u32;
    let states = random.between(1, 3) as u32;
    let phones = how_many(random, &[(60, 1, 4), (27, 5, 12), (10, 13, 40), (2, 41, 63), (1, 64, 64)]) as u32;
    let most = MOST_CLASSES as usize;
    let classes = how_many(random, &[(10, 0, 0), (60, 1, 6), (24, 7, 40), (5, 41, most - 1), (1, most, most)]);
    let ground = Ground { half, states, phones, classes: (0..classes).map(|_| class(random, phones)).collect() };
    let trees = trees(random, &ground);
    let book = match random.percent(50) {
        true => ground.plant(&trees),
        false => ground.plant_anyhow(&trees, random),
    };
    match random.percent(40) {
        true => with_boundaries(book, random),
        false => book,
    }
}

/// A small book in which of the leaves of two trees each has something in common with one alone, or with none.
/// Trees have 64 leaves at most.
pub fn random_apart(random: &mut Random) -> Book {
    let half = random.between(0, 3) as u32;
    let states = random.between(1, 3) as u32;
    let phones = random.between(1, 6) as u32;
    let most_positions = if phones > 4 { 2 } else { 3 };
    let position = |random: &mut Random| random.below(2 * half as usize + 1) as u32;
    let positions: Vec<u32> = (0..random.between(1, most_positions)).map(|_| position(random)).collect();
    let mut book = apart(half, states, phones, &positions);
    book = match random.below(3) {
        0 => all_like_silence(book, random.percent(30)),
        1 => with_boundaries(book, random),
        _ => book,
    };
    match random.percent(50) {
        true => respelled(&book, random),
        false => book,
    }
}

/// One of the ranges, each with its share of a hundred, and a number from it.
pub fn how_many(random: &mut Random, ranges: &[(usize, usize, usize)]) -> usize {
    let mut place = random.below(100);
    for &(share, low, high) in ranges {
        if place < share {
            return random.between(low, high);
        }
        place -= share;
    }
    unreachable!("the shares are a hundred")
}

/// A class of phones: empty, full, one phone, or any.
fn class(random: &mut Random, phones: u32) -> u64 {
    let all = all_phones(phones);
    match random.below(10) {
        0 => 0,
        1 => all,
        2..=4 => 1 << random.below(phones as usize),
        5 => all ^ 1 << random.below(phones as usize),
        _ => random.word() & all,
    }
}

/// A tree for each phone and state, 4096 nodes in all at most.
fn trees(random: &mut Random, ground: &Ground) -> Vec<Tree> {
    let count = (ground.phones * ground.states) as usize;
    let most_leaves = how_many(random, &[(20, 1, 1), (60, 2, 5), (19, 6, 20), (1, 21, 2000)]);
    let mut room = MOST_NODES as usize;
    let mut trees = Vec::new();
    for rest in (0..count).rev() {
        let leaves = random.between(1, most_leaves).min((room - rest).div_ceil(2));
        let tree = tree(random, ground, leaves);
        room -= tree.nodes();
        trees.push(tree);
    }
    trees
}

fn tree(random: &mut Random, ground: &Ground, leaves: usize) -> Tree {
    let width = 2 * ground.half + 1;
    if ground.classes.is_empty() {
        return Tree::Leaf;
    }
    match random.below(3) {
        0 => careless(random, ground, leaves),
        1 => chain(random, ground, leaves),
        _ => {
            let columns = vec![all_phones(ground.phones); width as usize];
            let positions: Vec<u32> = (0..width).collect();
            grow(random, &ground.classes, &columns, &positions, leaves)
        }
    }
}

fn question(random: &mut Random, ground: &Ground, yes: Tree, no: Tree) -> Tree {
    let class = random.between(1, ground.classes.len()) as u32;
    let position = random.below(2 * ground.half as usize + 1) as u32;
    Tree::ask(class, position, yes, no)
}

/// Any questions in any shape, also such that no context answers yes, or no.
fn careless(random: &mut Random, ground: &Ground, leaves: usize) -> Tree {
    if leaves < 2 {
        return Tree::Leaf;
    }
    let yes_leaves = random.between(1, leaves - 1);
    let yes = careless(random, ground, yes_leaves);
    let no = careless(random, ground, leaves - yes_leaves);
    question(random, ground, yes, no)
}

/// As deep as can be: one child of each question is a leaf.
fn chain(random: &mut Random, ground: &Ground, leaves: usize) -> Tree {
    let mut tree = Tree::Leaf;
    for _ in 1..leaves {
        tree = match random.percent(50) {
            true => question(random, ground, tree, Tree::Leaf),
            false => question(random, ground, Tree::Leaf, tree),
        };
    }
    tree
}
