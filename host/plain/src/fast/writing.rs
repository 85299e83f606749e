//! The plain form of a book: one walk that numbers nodes and classes, then the lines, written in place.

use crate::limits::{LEAF, LINE, NODE, NO_ROOT};
use crate::refusal::{refuse, Refusal, SHORT};
use fulgwerz::{Header, Tables};

const FIELD: usize = 6;

/// A book numbered anew. Classes are in the order of first use.
struct Numbered {
    classes: Vec<u64>,
    /// The new number of a class, by its old one from 1; 0 where it was not met.
    class_numbers: [u32; 256],
    nodes: Vec<[u32; NODE]>,
    /// With their places in the root table.
    roots: Vec<(u32, u32)>,
}

/// Writes the text into the lent bytes; answers its length.
pub fn write(header: Header, tables: Tables, text: &mut [u8]) -> Result<usize, Refusal> {
    let book = number(header, tables);
    let members: u32 = book.classes.iter().map(|class| class.count_ones()).sum();
    let boundaries = (1..=header.phones).zip(tables.plains).filter(|(_, &plain)| plain != 0);
    let length = LINE * (1 + members as usize + book.nodes.len() + boundaries.clone().count() + book.roots.len());
    if length > text.len() {
        return refuse(SHORT);
    }
    let mut lines = text[..length].chunks_exact_mut(LINE);
    let mut put = |letter, numbers: &[u32]| put_line(lines.next().expect("room for all lines"), letter, numbers);
    let Header { half, states, phones, nodes, .. } = header;
    put(b'H', &[half, states, phones, book.classes.len() as u32, nodes]);
    for (class, &members) in (1..).zip(&book.classes) {
        let mut rest = members;
        while rest != 0 {
            put(b'Q', &[class, rest.trailing_zeros() + 1]);
            rest &= rest - 1;
        }
    }
    for (number, node) in (0..).zip(&book.nodes) {
        match node[0] {
            LEAF => put(b'L', &[number, node[1]]),
            _ => put(b'N', &[number, node[1], node[2], node[3], node[4]]),
        }
    }
    for (phone, &plain) in boundaries {
        put(b'B', &[phone, plain]);
    }
    for &(place, root) in &book.roots {
        put(b'R', &[place / states + 1, place % states + 1, root]);
    }
    Ok(length)
}

/// Depth first, tree after tree. A no side waits with the node that names it until the yes side is done.
fn number(header: Header, tables: Tables) -> Numbered {
    let roots = &tables.roots[..(header.phones * header.states) as usize];
    let mut book = Numbered {
        classes: Vec::new(),
        class_numbers: [0; 256],
        nodes: Vec::with_capacity(header.nodes as usize),
        roots: Vec::with_capacity(roots.len()),
    };
    let mut waiting: Vec<(u32, usize)> = Vec::new();
    for (place, &root) in (0..).zip(roots).filter(|(_, &root)| root != NO_ROOT) {
        book.roots.push((place, book.nodes.len() as u32));
        let mut node = root;
        loop {
            let record = &tables.nodes[NODE * node as usize..][..NODE];
            let number = book.nodes.len();
            if record[0] != LEAF {
                let class = book.class_of(tables, record[1]);
                book.nodes.push([record[0], class, record[2], number as u32 + 1, 0]);
                waiting.push((record[4], number));
                node = record[3];
                continue;
            }
            book.nodes.push([record[0], record[1], 0, 0, 0]);
            let Some((no, parent)) = waiting.pop() else { break };
            book.nodes[parent][4] = number as u32 + 1;
            node = no;
        }
    }
    book
}

impl Numbered {
    /// The new number of a class; members are compared only where an old class is met for the first time.
    fn class_of(&mut self, tables: Tables, class: u32) -> u32 {
        let known = self.class_numbers[class as usize];
        if known != 0 {
            return known;
        }
        let members = tables.classes[class as usize - 1];
        let place = self.classes.iter().position(|&other| other == members).unwrap_or_else(|| {
            self.classes.push(members);
            self.classes.len() - 1
        });
        self.class_numbers[class as usize] = place as u32 + 1;
        place as u32 + 1
    }
}

fn put_line(line: &mut [u8], letter: u8, numbers: &[u32]) {
    line.fill(b' ');
    line[0] = letter;
    line[LINE - 1] = b'\n';
    for (field, &number) in line[1..].chunks_exact_mut(FIELD).zip(numbers) {
        let mut rest = number;
        for digit in field.iter_mut().rev() {
            *digit = b'0' + (rest % 10) as u8;
            rest /= 10;
            if rest == 0 {
                break;
            }
        }
    }
}
