//! Books by recipe, for measuring: the same numbers and seed always give the same book.

use super::numbering::Ground;
use super::trees::{grow, halving_classes, resolve, resolve_all, Tree};
use super::{all_phones, Book};
use crate::random::Random;

/// No questions: every tree is one leaf.
pub fn question_free(half: u32, states: u32, phones: u32) -> Book {
    let trees = vec![Tree::Leaf; (phones * states) as usize];
    Ground { half, states, phones, classes: Vec::new() }.plant(&trees)
}

/// What a book of grown trees is made from.
#[derive(Clone, Copy, Debug)]
pub struct Grown<'a> {
    pub half: u32,
    pub states: u32,
    pub phones: u32,
    pub classes: usize,
    /// The positions that are asked about.
    pub positions: &'a [u32],
    /// Leaves of each tree; a tree has fewer where questions run out.
    pub leaves: usize,
    pub seed: u64,
}

/// Trees as training leaves them: each question is about a class of phones that sound alike, at one of the positions.
pub fn grown(recipe: Grown) -> Book {
    let Grown { half, states, phones, positions, leaves, .. } = recipe;
    let mut random = Random::new(recipe.seed);
    let classes: Vec<u64> = (0..recipe.classes).map(|_| neighbouring_phones(&mut random, phones)).collect();
    let columns = vec![all_phones(phones); 2 * half as usize + 1];
    let trees: Vec<Tree> =
        (0..phones * states).map(|_| grow(&mut random, &classes, &columns, positions, leaves)).collect();
    Ground { half, states, phones, classes }.plant(&trees)
}

/// Phones are numbered so that alike ones stand together; a class is some of them in a row, at most half of all.
fn neighbouring_phones(random: &mut Random, phones: u32) -> u64 {
    let length = random.between(1, (phones as usize / 2).max(1)) as u32;
    let first = random.below((phones - length + 1) as usize) as u32;
    all_phones(length) << first
}

/// The trees of states 1, 2, .. each ask about one position until the phone there is known; the trees of further states
/// are single leaves. A phone then has as many combinations as there are choices of phones at these positions.
pub fn resolving(half: u32, states: u32, phones: u32, positions: &[u32]) -> Book {
    let mut classes = Vec::new();
    halving_classes(1, phones + 1, &mut classes);
    let tree = |state: u32| match positions.get(state as usize) {
        Some(&position) => resolve(position, 1, phones + 1, &mut 1),
        None => Tree::Leaf,
    };
    let trees: Vec<Tree> = (0..phones).flat_map(|_| (0..states).map(tree)).collect();
    Ground { half, states, phones, classes }.plant(&trees)
}

/// All trees ask about the same positions, one after the other, each until the phone there is known. Of the leaves of
/// two trees each has something in common with one alone; with every other it has an empty column.
pub fn apart(half: u32, states: u32, phones: u32, positions: &[u32]) -> Book {
    let mut classes = Vec::new();
    halving_classes(1, phones + 1, &mut classes);
    let trees = vec![resolve_all(positions, phones); (phones * states) as usize];
    Ground { half, states, phones, classes }.plant(&trees)
}
