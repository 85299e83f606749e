//! Damaged texts: what a careless hand or a bad copy does to a tree book, a network text or a word book.

use crate::damage_boundaries::damage_boundaries;
use plain::limits::LINE;
use plain::random::Random;

const FIELD: usize = 6;
const LETTERS: &[u8] = b"HQNLBRWAVX hqnlbrv";
const BYTES: &[u8] = b"0123456789 \n\r\tHQNLBRWAV-+.\0\xff";

/// Damages a text in one place, sometimes in several.
pub fn damage(random: &mut Random, text: &mut Vec<u8>) {
    let times = *random.pick(&[1, 1, 1, 1, 2, 2, 3]);
    for _ in 0..times {
        damage_once(random, text);
    }
}

fn damage_once(random: &mut Random, text: &mut Vec<u8>) {
    if text.len() < LINE {
        return extend(random, text);
    }
    match random.below(28) {
        24..=27 if text[0] == b'H' => damage_boundaries(random, text),
        0..=7 | 24..=27 => change_number(random, text),
        20..=23 => change_name(random, text),
        8 | 9 => change_byte(random, text),
        10 => change_letter(random, text),
        11 | 12 => misprint_field(random, text),
        13..=15 => change_lines(random, text),
        16 => cut(random, text),
        17 | 18 => extend(random, text),
        _ => change_line_end(random, text),
    }
}

/// The start of a random line; more often one of the first.
fn line_start(random: &mut Random, text: &[u8]) -> usize {
    let lines = text.len() / LINE;
    let among = if random.percent(20) { lines.min(3) } else { lines };
    LINE * random.below(among)
}

fn field_start(random: &mut Random, text: &[u8]) -> usize {
    line_start(random, text) + 1 + FIELD * random.below(5)
}

fn number_at(text: &[u8], at: usize) -> Option<u32> {
    std::str::from_utf8(&text[at..at + FIELD]).ok()?.trim().parse().ok()
}

/// Another number: near the one that stands there, near one of the first line's, or near a fixed limit.
fn change_number(random: &mut Random, text: &mut [u8]) {
    let mut at = field_start(random, text);
    for _ in 0..4 {
        if number_at(text, at).is_none() {
            at = field_start(random, text);
        }
    }
    let near = match random.below(4) {
        0 | 1 => number_at(text, at).unwrap_or(0),
        2 => number_at(text, 1 + FIELD * random.below(5)).unwrap_or(1),
        _ => *random.pick(&[0, 3, 6, 64, 255, 4095, 4096, 9999, 65535, 196607, 999_998, 999_999]),
    };
    let number = (near + random.below(4) as u32).saturating_sub(2).min(999_999);
    text[at..at + FIELD].copy_from_slice(format!("{number:6}").as_bytes());
}

/// Another node number for a child or a root: backward, named twice, never named, or the first free one.
fn change_name(random: &mut Random, text: &mut [u8]) {
    let nodes = number_at(text, 1 + FIELD * 4).unwrap_or(1).min(4096);
    for _ in 0..8 {
        let line = line_start(random, text);
        let field = match text[line] {
            b'N' => random.between(3, 4),
            b'R' => 2,
            _ => continue,
        };
        let at = line + 1 + FIELD * field;
        let number = match random.percent(50) {
            true => number_at(text, line + 1).unwrap_or(0) + random.below(3) as u32,
            false => random.below(nodes as usize + 1) as u32,
        };
        text[at..at + FIELD].copy_from_slice(format!("{:6}", number.min(999_999)).as_bytes());
        return;
    }
}

fn change_byte(random: &mut Random, text: &mut [u8]) {
    let at = random.below(text.len());
    text[at] = if random.percent(80) { *random.pick(BYTES) } else { random.word() as u8 };
}

fn change_letter(random: &mut Random, text: &mut [u8]) {
    let at = line_start(random, text);
    text[at] = *random.pick(LETTERS);
}

/// A field that is no number, or a number where none belongs.
fn misprint_field(random: &mut Random, text: &mut [u8]) {
    let at = field_start(random, text);
    let number = number_at(text, at).unwrap_or(1) % 10000;
    let field = match random.below(8) {
        0 => format!("{number:<6}"),
        1 => format!("{number:06}"),
        2 => format!("{:>6}", format!("0{number}")),
        3 => " ".repeat(FIELD),
        4 => format!("{:>6}", format!("+{number}")),
        5 => format!("{number:5} "),
        6 => format!("{:>6}", format!("{number} 1")),
        _ => format!("{number:6}"),
    };
    text[at..at + FIELD].copy_from_slice(&field.as_bytes()[..FIELD]);
}

/// A line dropped, doubled, or swapped with another.
fn change_lines(random: &mut Random, text: &mut Vec<u8>) {
    let one = line_start(random, text);
    let line = text[one..one + LINE].to_vec();
    match random.below(4) {
        0 => drop(text.drain(one..one + LINE)),
        1 => drop(text.splice(one..one, line)),
        2 => {
            let other = line_start(random, text);
            text.copy_within(other..other + LINE, one);
            text[other..other + LINE].copy_from_slice(&line);
        }
        _ => {
            let other = line_start(random, text);
            text[other..other + LINE].copy_from_slice(&line);
        }
    }
}

/// Ends too early, within a line or after one.
fn cut(random: &mut Random, text: &mut Vec<u8>) {
    match random.below(4) {
        0 => text.truncate(random.below(text.len() + 1)),
        1 => text.truncate(LINE * random.below(text.len() / LINE + 1)),
        2 => text.truncate(text.len() - LINE),
        _ => text.clear(),
    }
}

/// Goes on: with a line of its own, a blank one, junk, or a piece of a line.
fn extend(random: &mut Random, text: &mut Vec<u8>) {
    let lines = text.len() / LINE;
    let added = match random.below(5) {
        0 | 1 if lines > 0 => text[LINE * (lines - 1)..LINE * lines].to_vec(),
        2 => [" ".repeat(LINE - 1).as_bytes(), b"\n"].concat(),
        3 => [(0..LINE - 1).map(|_| *random.pick(BYTES)).collect::<Vec<u8>>().as_slice(), b"\n"].concat(),
        _ => (0..random.between(1, 40)).map(|_| *random.pick(BYTES)).collect(),
    };
    text.extend(added);
}

/// Another end of a line, or ends of two bytes throughout.
fn change_line_end(random: &mut Random, text: &mut Vec<u8>) {
    let end = line_start(random, text) + LINE - 1;
    match random.below(4) {
        0 => drop(text.splice(end..end + 1, *b"\r\n")),
        1 => drop(text.remove(end)),
        2 => *text = text.split(|&byte| byte == b'\n').collect::<Vec<_>>().join(b"\r\n".as_slice()),
        _ => text[end] = *random.pick(BYTES),
    }
}
