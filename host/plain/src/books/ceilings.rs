//! Books that reach the ceilings exactly, or pass them by the least step.

use super::boundaries::all_like_silence;
use super::numbering::Ground;
use super::recipes::resolving;
use super::trees::{resolve, Tree};
use super::{all_phones, Book, Node};

/// 16 phones with 16 x 16 x 16 combinations each.
pub fn combinations_65536() -> Book {
    resolving(2, 3, 16, &[0, 1, 3])
}

/// As many, of silence's three trees alone: all other phones are boundary phones without R lines.
pub fn combinations_65536_shared() -> Book {
    all_like_silence(combinations_65536(), false)
}

/// One combination less: the last phone's third tree does not tell phones 15 and 16 apart where phone 1 stands at the
/// first two positions.
pub fn combinations_65535() -> Book {
    let book = combinations_65536();
    let classes = book.classes.iter().copied().chain([1]).collect();
    let only_first = book.classes.len() as u32 + 1;
    let resolved = |position| resolve(position, 1, 17, &mut 1);
    let mut trees: Vec<Tree> = (0..16).flat_map(|_| [resolved(0), resolved(1), resolved(3)]).collect();
    let merged = merge_last(resolved(3));
    trees[47] = Tree::ask(only_first, 0, Tree::ask(only_first, 1, merged, resolved(3)), resolved(3));
    Ground { half: 2, states: 3, phones: 16, classes }.plant(&trees)
}

/// The same tree with its last question taken out.
fn merge_last(tree: Tree) -> Tree {
    match tree {
        Tree::Question { class, position, yes, no } => match *no {
            Tree::Leaf => Tree::Leaf,
            deeper => Tree::ask(class, position, *yes, merge_last(deeper)),
        },
        Tree::Leaf => Tree::Leaf,
    }
}

/// A phone whose tree asks whether silence comes next, in those contexts only that have, at each position named, one of
/// the first so many phones. There it has two metastates instead of one.
#[derive(Clone, Copy)]
struct Split<'a> {
    phone: u32,
    left: &'a [(u32, u32)],
}

fn splitting(half: u32, phones: u32, splits: &[Split]) -> Book {
    let mut trees = vec![Tree::Leaf; phones as usize];
    for split in splits {
        let next = Tree::ask(1, half + 1, Tree::Leaf, Tree::Leaf);
        let within = |tree, &(position, first): &(u32, u32)| Tree::ask(first, position, tree, Tree::Leaf);
        trees[split.phone as usize - 1] = split.left.iter().fold(next, within);
    }
    let classes = (1..=phones).map(all_phones).collect();
    Ground { half, states: 1, phones, classes }.plant(&trees)
}

/// 15^4 metastates without questions, and 4 x 15^3 + 15^2 x 6 + 4 x 15 more.
const SPLITS_TO_65535: [Split; 6] = [
    Split { phone: 2, left: &[] },
    Split { phone: 3, left: &[] },
    Split { phone: 4, left: &[] },
    Split { phone: 5, left: &[] },
    Split { phone: 6, left: &[(2, 6)] },
    Split { phone: 7, left: &[(0, 4), (2, 1)] },
];

pub fn metastates_65535() -> Book {
    splitting(3, 15, &SPLITS_TO_65535)
}

pub fn metastates_65536() -> Book {
    let one_more = Split { phone: 8, left: &[(0, 1), (1, 1), (2, 1)] };
    splitting(3, 15, &[&SPLITS_TO_65535[..], &[one_more]].concat())
}

/// 31^3 metastates without questions, and 2 x 31^2 + 31 x 16 + 18 more: 32227, with 31 arcs each to followers, 961 arcs
/// to FINAL and one from INITIAL.
pub fn arcs_999999() -> Book {
    splitting_31(&[Split { phone: 5, left: &[(0, 18), (1, 1)] }])
}

/// As many metastates, but with two of them at the start: one arc more from INITIAL.
pub fn arcs_1000000() -> Book {
    splitting_31(&[Split { phone: 5, left: &[(0, 17), (1, 1)] }, Split { phone: 1, left: &[(0, 1), (1, 1)] }])
}

fn splitting_31(last: &[Split]) -> Book {
    let first = [
        Split { phone: 2, left: &[] },
        Split { phone: 3, left: &[] },
        Split { phone: 4, left: &[(1, 16)] },
    ];
    splitting(2, 31, &[&first[..], last].concat())
}

/// Half-width 3, 3 states, 64 phones, 255 full classes, 4096 nodes: nearly all in the last tree, as deep as can be.
pub fn largest_tables() -> Book {
    let (phones, states) = (64, 3);
    let mut trees = vec![Tree::Leaf; (phones * states) as usize];
    trees[191] = chain(1952, |depth| (depth % 255 + 1, depth % 7));
    Ground { half: 3, states, phones, classes: vec![u64::MAX; 255] }.plant(&trees)
}

/// The same, but for the members of its classes: no two have the same, so all stay in the plain form, which is as long as
/// can be. One class has all phones, 64 have all but one, the others all but two.
pub fn most_classes() -> Book {
    let without_one = (0..64).map(|phone| !(1u64 << phone));
    let without_two = (1..64).flat_map(|high| (0..high).map(move |low| !(1u64 << high | 1 << low)));
    let classes = [u64::MAX].into_iter().chain(without_one).chain(without_two).take(255).collect();
    Book { classes, ..largest_tables() }
}

/// The same with 63 boundary phones, which have R lines too: no book has more lines.
pub fn longest_text() -> Book {
    all_like_silence(most_classes(), true)
}

/// 64 phones with one tree in all, of 2016 questions, one below the other.
pub fn deep_tree_shared() -> Book {
    let mut trees = vec![Tree::Leaf; 64];
    trees[0] = chain(2016, |depth| (depth % 64 + 1, depth % 3));
    let classes = (0..64).map(|phone| !(1u64 << phone)).collect();
    all_like_silence(Ground { half: 1, states: 1, phones: 64, classes }.plant(&trees), false)
}

/// One phone, one tree of 2047 questions, one below the other.
pub fn deepest_tree() -> Book {
    let tree = chain(2047, |depth| (1, depth % 3));
    Ground { half: 1, states: 1, phones: 1, classes: vec![1] }.plant(&[tree])
}

/// The same with yes and no exchanged: each question in the no of the one above.
pub fn deepest_tree_of_no() -> Book {
    let book = deepest_tree();
    let exchange = |&node: &Node| match node {
        Node::Question { class, position, yes, no } => Node::Question { class, position, yes: no, no: yes },
        leaf => leaf,
    };
    Book { nodes: book.nodes.iter().map(exchange).collect(), ..book }
}

/// The first phone's tree has 1023 nodes, those of the others are leaves.
pub fn nodes_1024() -> Book {
    one_large_tree(2)
}

pub fn nodes_1025() -> Book {
    one_large_tree(3)
}

fn one_large_tree(phones: u32) -> Book {
    let mut trees = vec![Tree::Leaf; phones as usize];
    trees[0] = chain(511, |depth| (depth % 3 + 1, depth % 3));
    Ground { half: 1, states: 1, phones, classes: vec![1, 2, 3] }.plant(&trees)
}

/// So many questions, each in the yes of the one above, about the class and position that its depth from below gives.
fn chain(questions: u32, about: impl Fn(u32) -> (u32, u32)) -> Tree {
    (0..questions).fold(Tree::Leaf, |below, depth| {
        let (class, position) = about(depth);
        Tree::ask(class, position, below, Tree::Leaf)
    })
}
