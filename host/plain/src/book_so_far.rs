//! What the lines of a book that were read so far say, and which line may come next.

use crate::limits::*;
use fulgwerz::Header;
use std::collections::BTreeMap;

#[derive(Default)]
pub struct BookSoFar {
    pub header: Header,
    pub classes: Vec<u64>,
    last_question: Option<(u32, u32)>,
    pub nodes: Vec<[u32; NODE]>,
    pub first_node_line: usize,
    /// By boundary phone.
    boundaries: BTreeMap<u32, Boundary>,
    /// The nodes of the R lines, by phone and state.
    roots: BTreeMap<(u32, u32), u32>,
}

/// A B line: the plain phone, and where it stands.
struct Boundary {
    plain: u32,
    line: usize,
}

impl BookSoFar {
    fn nodes_complete(&self) -> bool {
        self.nodes.len() == self.header.nodes as usize
    }

    fn is_boundary(&self, phone: u32) -> bool {
        self.boundaries.contains_key(&phone)
    }

    /// Phone and state of the last R line; before the first, those before phone 1.
    fn last_root(&self) -> (u32, u32) {
        self.roots.last_key_value().map_or((0, self.header.states), |(&place, _)| place)
    }

    /// The last phone's last R line was read: nothing may follow. The header has at least one phone.
    pub fn is_full(&self) -> bool {
        self.header.phones > 0 && self.last_root() == (self.header.phones, self.header.states)
    }

    /// Every phone has all its R lines, but boundary phones may have none.
    pub fn may_end(&self) -> bool {
        let (phone, state) = self.last_root();
        let Header { states, phones, .. } = self.header;
        phones > 0 && state == states && (phone + 1..=phones).all(|left_out| self.is_boundary(left_out))
    }

    /// One H; Q lines; one N or L for each node; B lines; then R lines.
    pub fn may_come(&self, number: usize, letter: u8) -> bool {
        match letter {
            b'H' => number == 1,
            b'Q' => number > 1 && self.nodes.is_empty(),
            b'N' | b'L' => number > 1 && !self.nodes_complete(),
            b'B' => number > 1 && self.nodes_complete() && self.roots.is_empty(),
            _ => number > 1 && self.nodes_complete(),
        }
    }

    pub fn in_range(&self, letter: u8, numbers: &[u32]) -> bool {
        let Header { half, states, phones, classes, nodes } = self.header;
        let ranges = match letter {
            b'H' => vec![0..=MOST_HALF, 1..=MOST_STATES, 1..=MOST_PHONES, 0..=MOST_CLASSES, 1..=MOST_NODES],
            b'Q' => vec![1..=classes, 1..=phones],
            b'N' => vec![0..=nodes - 1, 1..=classes, 0..=2 * half, 0..=nodes - 1, 0..=nodes - 1],
            b'L' => vec![0..=nodes - 1, 1..=MOST_MODEL],
            b'B' => vec![2..=phones, 1..=phones],
            _ => vec![1..=phones, 1..=states, 0..=nodes - 1],
        };
        ranges.iter().zip(numbers).all(|(range, number)| range.contains(number))
    }

    /// Q and B lines ascend strictly, nodes come one after another, R lines as `root_follows` says.
    pub fn in_order(&self, letter: u8, numbers: &[u32]) -> bool {
        match letter {
            b'Q' => self.last_question < Some((numbers[0], numbers[1])),
            b'N' | b'L' => numbers[0] as usize == self.nodes.len(),
            b'B' => self.boundaries.keys().all(|&before| before < numbers[0]),
            b'R' => self.root_follows(numbers[0], numbers[1]),
            _ => true,
        }
    }

    /// The next state of the same phone, or the first of a further one; the phones left out are boundary phones.
    fn root_follows(&self, phone: u32, state: u32) -> bool {
        let (last_phone, last_state) = self.last_root();
        if last_state < self.header.states {
            return (phone, state) == (last_phone, last_state + 1);
        }
        phone > last_phone && state == 1 && (last_phone + 1..phone).all(|left_out| self.is_boundary(left_out))
    }

    pub fn keep(&mut self, number: usize, letter: u8, numbers: &[u32]) {
        match letter {
            b'H' => {
                let [half, states, phones, classes, nodes] = numbers[..].try_into().expect("five numbers");
                self.header = Header { half, states, phones, classes, nodes };
                self.classes = vec![0; classes as usize];
            }
            b'Q' => {
                self.classes[numbers[0] as usize - 1] |= 1 << (numbers[1] - 1);
                self.last_question = Some((numbers[0], numbers[1]));
            }
            b'B' => drop(self.boundaries.insert(numbers[0], Boundary { plain: numbers[1], line: number })),
            b'R' => drop(self.roots.insert((numbers[0], numbers[1]), numbers[2])),
            _ => {
                if self.nodes.is_empty() {
                    self.first_node_line = number;
                }
                self.nodes.push(match letter {
                    b'N' => [QUESTION, numbers[1], numbers[2], numbers[3], numbers[4]],
                    _ => [LEAF, numbers[1], 0, 0, 0],
                });
            }
        }
    }

    /// The line of the lowest boundary phone whose plain phone is a boundary phone.
    pub fn chained_line(&self) -> Option<usize> {
        self.boundaries.values().find(|boundary| self.is_boundary(boundary.plain)).map(|boundary| boundary.line)
    }

    /// How often each node is named, as a child or as a root.
    pub fn named(&self) -> Vec<u32> {
        let mut named = vec![0; self.nodes.len()];
        for node in self.nodes.iter().filter(|node| node[0] == QUESTION) {
            named[node[3] as usize] += 1;
            named[node[4] as usize] += 1;
        }
        for &root in self.roots.values() {
            named[root as usize] += 1;
        }
        named
    }

    /// The root of each phone and state, or 4096 where no R line gives it.
    pub fn root_words(&self) -> Vec<u32> {
        let Header { states, phones, .. } = self.header;
        let places = (1..=phones).flat_map(|phone| (1..=states).map(move |state| (phone, state)));
        places.map(|place| self.roots.get(&place).copied().unwrap_or(NO_ROOT)).collect()
    }

    /// The plain phone of each phone, or 0.
    pub fn plain_words(&self) -> Vec<u32> {
        let plain = |phone| self.boundaries.get(&phone).map_or(0, |boundary| boundary.plain);
        (1..=self.header.phones).map(plain).collect()
    }
}
