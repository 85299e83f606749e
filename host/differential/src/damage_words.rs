//! Damage to the V lines of a word book: what goes wrong where words are numbered by hand.

use plain::books::text::line;
use plain::limits::LINE;
use plain::random::Random;

const FIELD: usize = 6;

/// Damages a word book in one place, sometimes in two.
pub fn damage_words(random: &mut Random, text: &mut Vec<u8>) {
    for _ in 0..*random.pick(&[1, 1, 1, 2]) {
        match random.below(5) {
            0 | 1 => change_number(random, text),
            2 => change_whole_line(random, text),
            3 => put_line(random, text),
            _ => drop_line(random, text),
        }
    }
}

fn any_line(random: &mut Random, text: &[u8]) -> usize {
    LINE * random.below((text.len() / LINE).max(1))
}

/// The three numbers of a line, or those of word 1 where they are none.
fn numbers_at(text: &[u8], at: usize) -> [u32; 3] {
    [0, 1, 2].map(|field| {
        let start = at + 1 + FIELD * field;
        let digits = text.get(start..start + FIELD).and_then(|field| std::str::from_utf8(field).ok());
        digits.and_then(|digits| digits.trim().parse().ok()).unwrap_or(1)
    })
}

/// A V line; a field has room for six digits.
fn written(numbers: [u32; 3]) -> Vec<u8> {
    let mut written = String::new();
    line(&mut written, 'V', &numbers.map(|number| number.min(999_999)));
    written.into_bytes()
}

fn set_line(text: &mut [u8], at: usize, numbers: [u32; 3]) {
    if let Some(place) = text.get_mut(at..at + LINE) {
        place.copy_from_slice(&written(numbers));
    }
}

/// One number just beside what it was, or beside its range.
fn change_number(random: &mut Random, text: &mut [u8]) {
    let at = any_line(random, text);
    let mut numbers = numbers_at(text, at);
    let field = random.below(3);
    let limit = [9999, 64, 64][field];
    numbers[field] = match random.below(3) {
        0 => *random.pick(&[0, 1, limit, limit + 1, 999_999]),
        1 => numbers[field] + 1,
        _ => numbers[field].saturating_sub(1),
    };
    set_line(text, at, numbers);
}

/// What could come next in another place: the next place, the first place of the next word, or of one later.
fn change_whole_line(random: &mut Random, text: &mut [u8]) {
    let at = any_line(random, text);
    let [word, place, phone] = numbers_at(text, at);
    let numbers = *random.pick(&[[word, place + 1, phone], [word + 1, 1, phone], [word + 2, 1, phone], [1, 1, phone]]);
    set_line(text, at, numbers);
}

/// A line more; sometimes the one that comes next at its place, so that the following one is out of order.
fn put_line(random: &mut Random, text: &mut Vec<u8>) {
    let at = any_line(random, text);
    let [word, place, phone] = numbers_at(text, at);
    let numbers = *random.pick(&[[word, place, phone], [word, place + 1, phone], [word + 1, 1, phone], [word, 65, 1]]);
    let after = (at + LINE).min(text.len());
    text.splice(after..after, written(numbers));
}

/// A line less: the first, the last, or any.
fn drop_line(random: &mut Random, text: &mut Vec<u8>) {
    let lines = text.len() / LINE;
    if lines > 0 {
        let any = random.below(lines);
        let at = LINE * random.pick(&[0, lines - 1, any]);
        text.drain(at..at + LINE);
    }
}
