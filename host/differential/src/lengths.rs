//! Lent lengths around what is needed.

use plain::random::Random;

/// So many words, or near: one more or less, a record more or less, no whole record, none, or any up to twice as many.
pub fn around(random: &mut Random, records: usize, size: usize) -> usize {
    let need = records * size;
    match random.below(12) {
        0 => need.saturating_sub(1),
        1 => need.saturating_sub(size),
        2 => need + 1,
        3 => need + size - 1,
        4 => need + size,
        5 => random.below(size + 1),
        6 => random.below(2 * need + 1),
        7 => need + random.below(20 * size),
        _ => need,
    }
}

/// Enough words, and sometimes some more.
pub fn enough(random: &mut Random, need: usize) -> usize {
    match random.percent(50) {
        true => need,
        false => need + random.below(12),
    }
}
