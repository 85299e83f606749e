//! Which phones a B line joins; fault 21 is about two such lines.

use crate::inputs::LINE;

/// What the B line with this number, counted from 1, does wrong by naming a boundary phone as plain phone.
pub fn describe(bytes: &[u8], line: usize) -> Option<String> {
    let text = std::str::from_utf8(bytes.chunks(LINE).nth(line.checked_sub(1)?)?).ok()?;
    let mut numbers = text.strip_prefix('B')?.split_whitespace();
    let (phone, plain) = (numbers.next()?, numbers.next()?);
    Some(format!("phone {phone} takes the trees of phone {plain}, which is a boundary phone itself"))
}

#[cfg(test)]
mod tests {
    use super::*;

    #[test]
    fn a_b_line_is_told_in_words() {
        let text = b"H     1     1     3     0     1\nB     2     3                  \n";
        let told = "phone 2 takes the trees of phone 3, which is a boundary phone itself";
        assert_eq!(describe(text, 2).as_deref(), Some(told));
        assert_eq!(describe(text, 1), None);
        assert_eq!(describe(text, 3), None);
        assert_eq!(describe(text, 0), None);
    }
}
