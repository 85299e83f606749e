//! Decision trees before their nodes have numbers, and ways to grow them.

use crate::random::Random;

#[derive(Clone, Debug)]
pub enum Tree {
    Question { class: u32, position: u32, yes: Box<Tree>, no: Box<Tree> },
    Leaf,
}

impl Tree {
    pub fn ask(class: u32, position: u32, yes: Tree, no: Tree) -> Tree {
        Tree::Question { class, position, yes: Box::new(yes), no: Box::new(no) }
    }

    pub fn nodes(&self) -> usize {
        match self {
            Tree::Leaf => 1,
            Tree::Question { yes, no, .. } => 1 + yes.nodes() + no.nodes(),
        }
    }

    /// The same questions with another tree in the place of each leaf.
    fn above(&self, below: &Tree) -> Tree {
        match self {
            Tree::Leaf => below.clone(),
            Tree::Question { class, position, yes, no } => {
                Tree::ask(*class, *position, yes.above(below), no.above(below))
            }
        }
    }
}

/// A tree of this many leaves, or fewer where questions run out: each question is about one of the positions and parts
/// the phones that can still stand there, as a trained tree's questions do.
pub fn grow(random: &mut Random, classes: &[u64], columns: &[u64], positions: &[u32], leaves: usize) -> Tree {
    if leaves < 2 {
        return Tree::Leaf;
    }
    let Some((class, position)) = parting_question(random, classes, columns, positions) else {
        return Tree::Leaf;
    };
    let yes_leaves = random.between(leaves.div_ceil(3), leaves - leaves.div_ceil(3));
    let members = classes[class];
    let column = position as usize;
    let mut inside = columns.to_vec();
    inside[column] &= members;
    let mut outside = columns.to_vec();
    outside[column] &= !members;
    let yes = grow(random, classes, &inside, positions, yes_leaves);
    let no = grow(random, classes, &outside, positions, leaves - yes_leaves);
    Tree::ask(class as u32 + 1, position, yes, no)
}

/// A class (from 0) and a position whose column holds phones inside and outside the class.
fn parting_question(random: &mut Random, classes: &[u64], columns: &[u64], positions: &[u32]) -> Option<(usize, u32)> {
    if classes.is_empty() || positions.is_empty() {
        return None;
    }
    for _ in 0..64 {
        let class = random.below(classes.len());
        let position = *random.pick(positions);
        let column = columns[position as usize];
        if column & classes[class] != 0 && column & !classes[class] != 0 {
            return Some((class, position));
        }
    }
    None
}

/// Asks about one position until the phone there is known, by the classes of `halving_classes`.
pub fn resolve(position: u32, low: u32, high: u32, next_class: &mut u32) -> Tree {
    if high - low == 1 {
        return Tree::Leaf;
    }
    let middle = low + (high - low) / 2;
    let class = *next_class;
    *next_class += 1;
    let yes = resolve(position, low, middle, next_class);
    let no = resolve(position, middle, high, next_class);
    Tree::ask(class, position, yes, no)
}

/// Asks about these positions one after the other, each until the phone there is known, by the same classes.
pub fn resolve_all(positions: &[u32], phones: u32) -> Tree {
    let resolved = |below: Tree, &position: &u32| resolve(position, 1, phones + 1, &mut 1).above(&below);
    positions.iter().rev().fold(Tree::Leaf, resolved)
}

/// The classes that `resolve` asks about, in its order: for each range of phones its lower half.
pub fn halving_classes(low: u32, high: u32, classes: &mut Vec<u64>) {
    if high - low == 1 {
        return;
    }
    let middle = low + (high - low) / 2;
    classes.push((low..middle).map(|phone| 1u64 << (phone - 1)).sum());
    halving_classes(low, middle, classes);
    halving_classes(middle, high, classes);
}
