//! Lines of 32 bytes: a letter, five fields of six bytes, a line feed.

use crate::limits::LINE;
use crate::refusal::{refuse, Refusal, RAGGED};

const FIELD: usize = 6;

/// A kind of text: its letters, and how many fields each uses.
pub type Forms = [(u8, usize)];

pub const BOOK_FORMS: &Forms = &[(b'H', 5), (b'Q', 2), (b'N', 5), (b'L', 2), (b'B', 2), (b'R', 3)];
pub const NETWORK_FORMS: &Forms = &[(b'W', 3), (b'A', 4)];
pub const WORD_FORMS: &Forms = &[(b'V', 3)];

/// The lines of a text, or 11 over the whole of it.
pub fn lines_of(text: &[u8]) -> Result<Vec<&[u8]>, Refusal> {
    let lines: Vec<&[u8]> = text.chunks(LINE).collect();
    let ragged = text.is_empty() || lines.iter().any(|line| line.len() != LINE || line[LINE - 1] != b'\n');
    if ragged {
        return refuse(RAGGED);
    }
    Ok(lines)
}

/// The letter and the numbers of a line, or nothing where it is a misprint: a letter that this kind of text never has,
/// or a field that is not what the letter asks for.
pub fn parse(line: &[u8], forms: &Forms) -> Option<(u8, Vec<u32>)> {
    let letter = line[0];
    let &(_, used) = forms.iter().find(|(known, _)| *known == letter)?;
    let fields: Vec<&[u8]> = line[1..LINE - 1].chunks(FIELD).collect();
    if fields[used..].iter().any(|field| *field != b"      ") {
        return None;
    }
    let numbers: Option<Vec<u32>> = fields[..used].iter().map(|field| number_of(field)).collect();
    Some((letter, numbers?))
}

/// A number right-justified with spaces, without leading zeros.
fn number_of(field: &[u8]) -> Option<u32> {
    let text = std::str::from_utf8(field).ok()?.trim_start_matches(' ');
    let plain = !text.is_empty() && text.bytes().all(|byte| byte.is_ascii_digit());
    let leading_zero = text.len() > 1 && text.starts_with('0');
    if plain && !leading_zero {
        text.parse().ok()
    } else {
        None
    }
}
