//! A tree book as text: its lines in the documents' order.

use super::{Book, Node};
use crate::limits::NO_ROOT;

impl Book {
    pub fn text(&self) -> Vec<u8> {
        let mut text = String::new();
        let header = [self.half, self.states, self.phones, self.classes.len() as u32, self.nodes.len() as u32];
        line(&mut text, 'H', &header);
        self.class_lines(&mut text);
        self.node_lines(&mut text);
        for (phone, &plain) in (1..).zip(&self.plains).filter(|(_, &plain)| plain != 0) {
            line(&mut text, 'B', &[phone, plain]);
        }
        for (place, &root) in (0..).zip(&self.roots).filter(|(_, &root)| root != NO_ROOT) {
            line(&mut text, 'R', &[place / self.states + 1, place % self.states + 1, root]);
        }
        text.into_bytes()
    }

    fn class_lines(&self, text: &mut String) {
        for (class, &members) in self.classes.iter().enumerate() {
            for phone in (1..=self.phones).filter(|phone| members >> (phone - 1) & 1 == 1) {
                line(text, 'Q', &[class as u32 + 1, phone]);
            }
        }
    }

    fn node_lines(&self, text: &mut String) {
        for (number, &node) in self.nodes.iter().enumerate() {
            let number = number as u32;
            match node {
                Node::Question { class, position, yes, no } => line(text, 'N', &[number, class, position, yes, no]),
                Node::Leaf { model } => line(text, 'L', &[number, model]),
            }
        }
    }
}

/// A text from its lines, written with single blanks and a stroke between them.
pub fn lines(text: &str) -> Vec<u8> {
    let written = |row: &str| {
        let (letter, fields) = row.split_at(1);
        let fields: String = fields.split_whitespace().map(|field| format!("{field:>6}")).collect();
        format!("{:31}\n", format!("{letter}{fields}"))
    };
    text.split(" / ").map(written).collect::<String>().into_bytes()
}

/// One line of 32 bytes: a letter, five fields of six bytes, a line feed.
pub fn line(text: &mut String, letter: char, numbers: &[u32]) {
    text.push(letter);
    for field in 0..5 {
        match numbers.get(field) {
            Some(number) => text.push_str(&format!("{number:6}")),
            None => text.push_str("      "),
        }
    }
    text.push('\n');
}
