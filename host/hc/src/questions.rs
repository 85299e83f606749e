//! How many questions the trees of a book ask: a line for each phone and state.

use crate::books::Book;
use crate::buffers::Node;
use fulgwerz::Header;
use std::fmt::Write;
use std::ops::Add;

/// The walks from the root of a tree to each of its leaves.
#[derive(Clone, Copy, Default)]
struct Walks {
    leaves: u32,
    /// Questions of the longest walk.
    deepest: u32,
    /// Questions of all walks.
    questions: u32,
}

impl Walks {
    fn to_leaves_of(book: &Book, root: u32) -> Walks {
        let mut walks = Walks::default();
        let mut waiting = vec![(root, 0)];
        while let Some((node, depth)) = waiting.pop() {
            match book.tables.node(node) {
                Node::Question { yes, no, .. } => waiting.extend([(yes, depth + 1), (no, depth + 1)]),
                Node::Leaf { .. } => walks = walks + Walks { leaves: 1, deepest: depth, questions: depth },
            }
        }
        walks
    }

    fn average(&self) -> f64 {
        f64::from(self.questions) / f64::from(self.leaves)
    }
}

impl Add for Walks {
    type Output = Walks;

    fn add(self, other: Walks) -> Walks {
        Walks {
            leaves: self.leaves + other.leaves,
            deepest: self.deepest.max(other.deepest),
            questions: self.questions + other.questions,
        }
    }
}

/// A head, a line for each phone and state, and one for all trees that are used, each of them counted once.
pub fn table(book: &Book) -> String {
    let Header { states, phones, .. } = book.header;
    let mut text = format!("{:>5} {:>5} {:>6} {:>7} {:>7}\n", "phone", "state", "leaves", "deepest", "average");
    let mut all = Walks::default();
    for phone in 1..=phones {
        let plain = book.tables.plain(phone);
        for state in 1..=states {
            let place = (plain.unwrap_or(phone) - 1) * states + state - 1;
            let root = book.tables.root(place).expect("a phone without B line has all its R lines");
            let walks = Walks::to_leaves_of(book, root);
            if plain.is_none() {
                all = all + walks;
            }
            let of = plain.map(|plain| format!("  trees of phone {plain}")).unwrap_or_default();
            row(&mut text, &format!("{phone:>5} {state:>5}"), walks, &of);
        }
    }
    row(&mut text, &format!("{:>11}", "all"), all, "");
    text
}

fn row(text: &mut String, which: &str, walks: Walks, more: &str) {
    let Walks { leaves, deepest, .. } = walks;
    writeln!(text, "{which} {leaves:>6} {deepest:>7} {:>7.2}{more}", walks.average())
        .expect("a string takes all that is written");
}
