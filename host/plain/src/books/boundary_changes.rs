//! Books that differ from another one in a single B line, or in whether a boundary phone has R lines.

use super::{Book, Node};
use crate::limits::{MOST_NODES, NO_ROOT};
use crate::random::Random;

/// A phone of which this holds, if there is one.
fn any_phone(book: &Book, random: &mut Random, holds: impl Fn(u32) -> bool) -> Option<u32> {
    let phones: Vec<u32> = (1..=book.phones).filter(|&phone| holds(phone)).collect();
    (!phones.is_empty()).then(|| *random.pick(&phones))
}

fn any_boundary(book: &Book, random: &mut Random, with_own_trees: bool) -> Option<u32> {
    let has_own_trees = |phone: u32| book.roots[((phone - 1) * book.states) as usize] != NO_ROOT;
    any_phone(book, random, |phone| book.is_boundary(phone) && has_own_trees(phone) == with_own_trees)
}

pub fn other_plain(book: &mut Book, random: &mut Random) -> Option<()> {
    let boundary = any_phone(book, random, |phone| book.is_boundary(phone))? as usize - 1;
    let plain = any_phone(book, random, |phone| !book.is_boundary(phone) && phone != book.plains[boundary])?;
    book.plains[boundary] = plain;
    Some(())
}

/// A phone that is nobody's plain phone becomes a boundary phone; its R lines stay.
pub fn one_boundary_more(book: &mut Book, random: &mut Random) -> Option<()> {
    let is_free = |phone: u32| phone > 1 && !book.is_boundary(phone) && !book.plains.contains(&phone);
    let boundary = any_phone(book, random, is_free)?;
    let plain = any_phone(book, random, |phone| !book.is_boundary(phone) && phone != boundary)?;
    book.plains[boundary as usize - 1] = plain;
    Some(())
}

pub fn one_boundary_less(book: &mut Book, random: &mut Random) -> Option<()> {
    let boundary = any_boundary(book, random, true)?;
    book.plains[boundary as usize - 1] = 0;
    Some(())
}

/// What the trees give stays the same.
pub fn own_trees_left_out(book: &mut Book, random: &mut Random) -> Option<()> {
    let boundary = any_boundary(book, random, true)?;
    book.own_roots(boundary).fill(NO_ROOT);
    book.drop_unreached();
    Some(())
}

/// What the trees give stays the same.
pub fn own_trees_added(book: &mut Book, random: &mut Random) -> Option<()> {
    let boundary = any_boundary(book, random, false)?;
    let first_new = book.nodes.len() as u32;
    if first_new + book.states > MOST_NODES {
        return None;
    }
    book.nodes.extend((0..book.states).map(|_| Node::Leaf { model: 1 }));
    book.own_roots(boundary).iter_mut().zip(first_new..).for_each(|(root, new)| *root = new);
    Some(())
}
