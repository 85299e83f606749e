//! Tables as reading leaves them.

use crate::lent_tables::LentTables;
use fulgwerz::{Header, Tables, TablesMut};
use plain::books::random_books::random_book;
use plain::books::{Book, Node};
use plain::limits::*;
use plain::random::Random;

#[derive(Clone, Debug)]
pub struct OwnTables {
    pub header: Header,
    pub nodes: Vec<u32>,
    pub classes: Vec<u64>,
    pub roots: Vec<u32>,
    pub plains: Vec<u32>,
}

impl OwnTables {
    /// A random book's.
    pub fn known(random: &mut Random) -> OwnTables {
        let book = random_book(random);
        let beyond = if random.percent(40) { random.below(8) } else { 0 };
        OwnTables::of(&book, beyond)
    }

    /// A book's, with so many words beyond each table's used ones.
    pub fn of(book: &Book, beyond: usize) -> OwnTables {
        let mut tables = OwnTables::read(&book.text()).expect("a book that is written is read");
        tables.nodes.resize(tables.nodes.len() + beyond, 0);
        tables.classes.resize(tables.classes.len() + beyond, 0);
        tables.roots.resize(tables.roots.len() + beyond, 0);
        tables.plains.resize(tables.plains.len() + beyond, 0);
        tables
    }

    /// What reading leaves in tables of just the length, if the text is accepted.
    pub fn read(text: &[u8]) -> Option<OwnTables> {
        let (mut nodes, mut classes) = (vec![0; NODE * MOST_NODES as usize], vec![0; MOST_CLASSES as usize]);
        let (mut roots, mut plains) = (vec![0; (MOST_PHONES * MOST_STATES) as usize], vec![0; MOST_PHONES as usize]);
        let lent = TablesMut { nodes: &mut nodes, classes: &mut classes, roots: &mut roots, plains: &mut plains };
        let answer = plain::read(text, lent);
        if answer.fault != 0 {
            return None;
        }
        let header = answer.header;
        nodes.truncate(NODE * header.nodes as usize);
        classes.truncate(header.classes as usize);
        roots.truncate((header.phones * header.states) as usize);
        plains.truncate(header.phones as usize);
        Some(OwnTables { header, nodes, classes, roots, plains })
    }

    /// A book's as they are, also where no reader leaves them.
    pub fn unread(book: &Book) -> OwnTables {
        let (classes, nodes) = (book.classes.len() as u32, book.nodes.len() as u32);
        let header = Header { half: book.half, states: book.states, phones: book.phones, classes, nodes };
        let words = |node: &Node| match *node {
            Node::Question { class, position, yes, no } => [QUESTION, class, position, yes, no],
            Node::Leaf { model } => [LEAF, model, 0, 0, 0],
        };
        let nodes = book.nodes.iter().flat_map(words).collect();
        let Book { classes, roots, plains, .. } = book.clone();
        OwnTables { header, nodes, classes, roots, plains }
    }

    /// The words of each table.
    pub fn lengths(&self) -> [usize; 4] {
        [self.nodes.len(), self.classes.len(), self.roots.len(), self.plains.len()]
    }

    pub fn lend(&self) -> LentTables {
        LentTables::holding(self.tables())
    }

    pub fn tables(&self) -> Tables<'_> {
        Tables { nodes: &self.nodes, classes: &self.classes, roots: &self.roots, plains: &self.plains }
    }

    /// The text that a book in known tables is written as.
    pub fn plain_form(&self) -> Vec<u8> {
        let members = self.classes.len() * MOST_PHONES as usize;
        let lines = 1 + members + self.nodes.len() / NODE + self.plains.len() + self.roots.len();
        let mut text = vec![0; LINE * lines];
        let answer = plain::write_book(self.header, self.tables(), &mut text);
        assert_eq!(answer.fault, 0, "a known book is refused: {self:?}");
        text.truncate(answer.count);
        text
    }
}
