//! Books as reading left them.

use fulgwerz::{Header, ReadAnswer, Tables, TablesMut};

/// In tables that are longer than any book needs.
pub struct Read {
    pub header: Header,
    pub nodes: Vec<u32>,
    pub classes: Vec<u64>,
    pub roots: Vec<u32>,
    pub plains: Vec<u32>,
}

impl Read {
    /// A book that is accepted.
    pub fn new(text: &[u8]) -> Read {
        let (answer, book) = Read::answered(text);
        assert_eq!((answer.fault, answer.line), (0, 0));
        book
    }

    /// The answer, and what the tables hold then.
    pub fn answered(text: &[u8]) -> (ReadAnswer, Read) {
        let (mut nodes, mut classes) = (vec![7; 5 * 4096], vec![7; 256]);
        let (mut roots, mut plains) = (vec![7; 193], vec![7; 65]);
        let lent = TablesMut { nodes: &mut nodes, classes: &mut classes, roots: &mut roots, plains: &mut plains };
        let answer = plain::read(text, lent);
        (answer, Read { header: answer.header, nodes, classes, roots, plains })
    }

    pub fn tables(&self) -> Tables<'_> {
        Tables { nodes: &self.nodes, classes: &self.classes, roots: &self.roots, plains: &self.plains }
    }
}
