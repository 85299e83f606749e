//! Books in which one rule about boundary phones and R lines is broken: as texts they are refused, as tables foreign.

use super::boundary_changes::one_boundary_more;
use super::Book;
use crate::limits::NO_ROOT;
use crate::random::Random;

type Breaking = fn(&mut Book, &mut Random) -> Option<()>;

/// One gives nothing where the book has no place for it; silence can always be made a boundary phone.
const BREAKINGS: [Breaking; 6] =
    [silence_as_boundary, chained, chained_and_orphan, plain_beyond, some_states_left_out, phone_left_out];

pub fn broken(book: &Book, random: &mut Random) -> Book {
    loop {
        let mut other = book.clone();
        for _ in 0..random.below(4) {
            // So that more phones have both a B line and R lines.
            let _ = one_boundary_more(&mut other, random);
        }
        if random.pick(&BREAKINGS)(&mut other, random).is_some() {
            other.drop_unreached();
            if !other.nodes.is_empty() {
                return other;
            }
        }
    }
}

fn any_phone(book: &Book, random: &mut Random) -> u32 {
    random.between(1, book.phones as usize) as u32
}

fn silence_as_boundary(book: &mut Book, random: &mut Random) -> Option<()> {
    book.plains[0] = any_phone(book, random);
    if random.percent(30) {
        book.own_roots(1).fill(NO_ROOT);
    }
    Some(())
}

/// A plain phone is a boundary phone, another one or itself; sometimes there are several such.
fn chained(book: &mut Book, random: &mut Random) -> Option<()> {
    for _ in 0..random.between(1, 3) {
        let phone = any_phone(book, random);
        let plain = any_phone(book, random);
        book.plains[phone as usize - 1] = plain;
    }
    let is_chained = |&plain: &u32| plain != 0 && book.is_boundary(plain);
    (book.plains[0] == 0 && book.plains.iter().any(is_chained)).then_some(())
}

/// Silence's first root is in most cases named once more, by another line.
fn chained_and_orphan(book: &mut Book, random: &mut Random) -> Option<()> {
    chained(book, random)?;
    book.own_roots(1)[0] = random.below(book.nodes.len()) as u32;
    Some(())
}

fn plain_beyond(book: &mut Book, random: &mut Random) -> Option<()> {
    let phone = any_phone(book, random);
    book.plains[phone as usize - 1] = *random.pick(&[book.phones + 1, 65, 4096, 999_999]);
    (phone > 1).then_some(())
}

/// One root of several is not there, or is there alone.
fn some_states_left_out(book: &mut Book, random: &mut Random) -> Option<()> {
    let phone = any_phone(book, random);
    let state = random.below(book.states as usize);
    let own = book.own_roots(phone);
    if random.percent(50) {
        own[state] = NO_ROOT;
    } else {
        let kept = own[state];
        own.fill(NO_ROOT);
        own[state] = kept;
    }
    (own.contains(&NO_ROOT) && own.iter().any(|&root| root != NO_ROOT)).then_some(())
}

/// All roots of a phone that is no boundary phone.
fn phone_left_out(book: &mut Book, random: &mut Random) -> Option<()> {
    let phone = any_phone(book, random);
    book.own_roots(phone).fill(NO_ROOT);
    (!book.is_boundary(phone)).then_some(())
}
