//! Names and lines as messages show them.

use std::ffi::OsStr;
use std::fmt::Write;

/// A name or an argument: control characters escaped, bytes that are no UTF-8 replaced.
pub fn name(name: &OsStr) -> String {
    let mut shown = String::new();
    for letter in name.to_string_lossy().chars() {
        if letter.is_control() {
            shown.extend(letter.escape_default());
        } else {
            shown.push(letter);
        }
    }
    shown
}

/// A line of any bytes, without its line feed: whatever is not printable is escaped.
pub fn line(bytes: &[u8]) -> String {
    let mut shown = String::new();
    for &byte in bytes.strip_suffix(b"\n").unwrap_or(bytes) {
        match byte {
            b'\\' => shown.push_str("\\\\"),
            b'\t' => shown.push_str("\\t"),
            b'\n' => shown.push_str("\\n"),
            b'\r' => shown.push_str("\\r"),
            b' '..=b'~' => shown.push(char::from(byte)),
            _ => write!(shown, "\\x{byte:02x}").expect("a string takes all that is written"),
        }
    }
    shown
}

#[cfg(test)]
mod tests {
    use super::*;
    use std::os::unix::ffi::OsStrExt;

    #[test]
    fn a_name_keeps_its_letters_and_loses_control_characters() {
        assert_eq!(name(OsStr::new("zürich.book")), "zürich.book");
        assert_eq!(name(OsStr::new("a\x1b[2Jb\n")), "a\\u{1b}[2Jb\\n");
        assert_eq!(name(OsStr::from_bytes(b"a\xffb")), "a\u{fffd}b");
    }

    #[test]
    fn a_line_shows_every_byte() {
        assert_eq!(line(b"L     0    10\n"), "L     0    10");
        assert_eq!(line(b"\x00\t\r\n\\\x7f\xe9~ "), "\\x00\\t\\r\\n\\\\\\x7f\\xe9~ ");
        assert_eq!(line(b""), "");
    }
}
