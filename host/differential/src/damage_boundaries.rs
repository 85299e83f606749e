//! Damage to the B and R lines of a book: what goes wrong where phones are doubled.

use plain::books::text::line;
use plain::limits::LINE;
use plain::random::Random;

const FIELD: usize = 6;

/// Damages a book's B or R lines in one place.
pub fn damage_boundaries(random: &mut Random, text: &mut Vec<u8>) {
    match random.below(8) {
        0..=2 => put_boundary(random, text),
        3 => change_field(random, text, b'B', 2),
        4 => exchange_boundaries(random, text),
        5 => change_field(random, text, b'R', 2),
        _ => drop_roots(random, text),
    }
}

/// Where the lines of this letter begin.
fn places_of(text: &[u8], letter: u8) -> Vec<usize> {
    (0..text.len() / LINE).map(|number| LINE * number).filter(|&at| text[at] == letter).collect()
}

/// A phone of the book, or a number just beside its phones.
fn phone(random: &mut Random, text: &[u8]) -> u32 {
    let phones = number_at(text, 1 + 2 * FIELD).unwrap_or(3).min(64);
    random.below(phones as usize + 2) as u32
}

fn number_at(text: &[u8], at: usize) -> Option<u32> {
    std::str::from_utf8(&text[at..at + FIELD]).ok()?.trim().parse().ok()
}

/// A further B line, mostly before the first R line, but also anywhere.
fn put_boundary(random: &mut Random, text: &mut Vec<u8>) {
    let at = match places_of(text, b'R').first() {
        Some(&first_root) if random.percent(70) => first_root,
        _ => LINE * random.below(text.len() / LINE + 1),
    };
    let mut boundary = String::new();
    line(&mut boundary, 'B', &[phone(random, text), phone(random, text)]);
    text.splice(at..at, boundary.into_bytes());
}

/// Another phone in one of the first fields of such a line.
fn change_field(random: &mut Random, text: &mut [u8], letter: u8, fields: usize) {
    let places = places_of(text, letter);
    if !places.is_empty() {
        let at = random.pick(&places) + 1 + FIELD * random.below(fields);
        let number = phone(random, text);
        text[at..at + FIELD].copy_from_slice(format!("{number:6}").as_bytes());
    }
}

fn exchange_boundaries(random: &mut Random, text: &mut [u8]) {
    let places = places_of(text, b'B');
    if !places.is_empty() {
        let (one, other) = (*random.pick(&places), *random.pick(&places));
        (0..LINE).for_each(|byte| text.swap(one + byte, other + byte));
    }
}

/// One R line less, or all of one phone.
fn drop_roots(random: &mut Random, text: &mut Vec<u8>) {
    let places = places_of(text, b'R');
    if places.is_empty() {
        return;
    }
    let chosen = *random.pick(&places);
    let field = |at: usize| text[at + 1..at + 1 + FIELD].to_vec();
    let mut dropped = vec![chosen];
    if random.percent(50) {
        dropped = places.into_iter().filter(|&at| field(at) == field(chosen)).collect();
    }
    dropped.into_iter().rev().for_each(|at| drop(text.drain(at..at + LINE)));
}
