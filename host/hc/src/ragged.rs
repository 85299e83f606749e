//! Where a text is not made of lines of 32 bytes; the library names no line for that fault.

use crate::inputs::LINE;
use crate::showing;

/// The longest beginning of a line that is shown.
const SHOWN: usize = 64;

/// What is wrong with the first line that has another length than it should.
pub fn describe(bytes: &[u8]) -> String {
    let odd = bytes.split_inclusive(|&byte| byte == b'\n').enumerate().find(|(_, line)| !is_whole(line));
    match odd {
        Some((place, line)) => format!("line {} {}\n  {}", place + 1, complaint(line), beginning(line)),
        None => "the text is empty".to_string(),
    }
}

fn is_whole(line: &[u8]) -> bool {
    line.len() == LINE && line.ends_with(b"\n")
}

fn complaint(line: &[u8]) -> String {
    let Some(content) = line.strip_suffix(b"\n") else {
        return format!("has no line end after its {} characters", line.len());
    };
    if content.len() == LINE && content.ends_with(b"\r") {
        return "ends in two characters, CR and LF, instead of one".to_string();
    }
    format!("has {} characters before its end", content.len())
}

fn beginning(line: &[u8]) -> String {
    if line.len() > SHOWN {
        format!("{} ..", showing::line(&line[..SHOWN]))
    } else {
        showing::line(line)
    }
}

#[cfg(test)]
mod tests {
    use super::*;

    #[test]
    fn an_empty_text() {
        assert_eq!(describe(b""), "the text is empty");
    }

    #[test]
    fn a_line_of_another_length() {
        let text = [&[b' '; 31][..], b"\nL     0    10\n"].concat();
        assert_eq!(describe(&text), "line 2 has 13 characters before its end\n  L     0    10");
    }

    #[test]
    fn a_line_end_of_two_characters() {
        let text = [&[b'Q'; 31][..], b"\r\n"].concat();
        let shown = "QQQQQQQQQQQQQQQQQQQQQQQQQQQQQQQ\\r";
        assert_eq!(describe(&text), format!("line 1 ends in two characters, CR and LF, instead of one\n  {shown}"));
    }

    #[test]
    fn a_last_line_without_its_end() {
        assert_eq!(
            describe(&[b'R'; 31]),
            format!("line 1 has no line end after its 31 characters\n  {}", "R".repeat(31))
        );
    }

    #[test]
    fn a_long_line_is_cut() {
        assert_eq!(
            describe(&[0; 100]),
            format!("line 1 has no line end after its 100 characters\n  {} ..", "\\x00".repeat(64))
        );
    }
}
