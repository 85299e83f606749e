//! Books and networks for the tests.

/// Document 01's example, and its network.
pub const BOOK: &[u8] = include_bytes!("../../../../crates/build/stdin");
pub const NETWORK: &[u8] = include_bytes!("../../../../crates/build/stdout");

/// A line of 32 bytes.
pub fn line(letter: char, numbers: &[u32]) -> String {
    let fields: String = numbers.iter().map(|number| format!("{number:6}")).collect();
    format!("{:31}\n", format!("{letter}{fields}"))
}

/// A text from its lines, written with single blanks and a stroke between them.
pub fn lines(text: &str) -> Vec<u8> {
    let numbers = |fields: &str| fields.split(' ').map(|number| number.parse().unwrap()).collect::<Vec<u32>>();
    let written = |row: &str| line(row.chars().next().unwrap(), &numbers(&row[2..]));
    text.split(" / ").map(written).collect::<String>().into_bytes()
}

/// A text with one line changed, counted from 1; `line` is filled up with blanks.
pub fn with_line(text: &[u8], number: usize, line: &str) -> Vec<u8> {
    let mut text = text.to_vec();
    text[32 * (number - 1)..32 * number].copy_from_slice(format!("{line:31}\n").as_bytes());
    text
}

/// A book without questions: one leaf for each phone and state.
pub fn plain_book(half: u32, states: u32, phones: u32) -> Vec<u8> {
    let leaves = states * phones;
    let mut text = line('H', &[half, states, phones, 0, leaves]);
    for node in 0..leaves {
        text += &line('L', &[node, node + 1]);
    }
    for root in 0..leaves {
        text += &line('R', &[root / states + 1, root % states + 1, root]);
    }
    text.into_bytes()
}

/// The longest book: 3 states, 64 phones, 255 classes that each have all phones, 4096 nodes. The last tree has all
/// questions; they are about the phone itself, so the first is always answered yes.
pub fn longest_book(half: u32) -> Vec<u8> {
    let (roots, questions) = (192, 1952);
    let mut text = line('H', &[half, 3, 64, 255, 4096]);
    for class in 1..=255 {
        for phone in 1..=64 {
            text += &line('Q', &[class, phone]);
        }
    }
    for node in 0..roots - 1 {
        text += &line('L', &[node, node + 1]);
    }
    for question in 0..questions {
        let node = roots - 1 + 2 * question;
        text += &line('N', &[node, 1 + question % 255, half, node + 1, node + 2]);
        text += &line('L', &[node + 1, 1000]);
    }
    text += &line('L', &[4095, 1001]);
    for root in 0..roots {
        text += &line('R', &[root / 3 + 1, root % 3 + 1, root]);
    }
    text.into_bytes()
}

/// Silence has three trees of `leaves` leaves, each about another position, so leaves³ combinations; one more phone for
/// each leaf but one, so that each leaf is reached by some phone.
pub fn book_of_choices(leaves: u32) -> Vec<u8> {
    let phones = leaves;
    let tree = 2 * leaves - 1;
    let nodes = 3 * tree + 3 * (phones - 1);
    let mut text = line('H', &[3, 3, phones, phones, nodes]);
    for phone in 1..=phones {
        text += &line('Q', &[phone, phone]);
    }
    for state in 0..3 {
        for question in 0..leaves - 1 {
            let node = state * tree + 2 * question;
            text += &line('N', &[node, question + 1, state, node + 1, node + 2]);
            text += &line('L', &[node + 1, question + 1]);
        }
        text += &line('L', &[(state + 1) * tree - 1, leaves]);
    }
    for node in 3 * tree..nodes {
        text += &line('L', &[node, 100]);
    }
    for state in 0..3 {
        text += &line('R', &[1, state + 1, state * tree]);
    }
    for root in 3 * tree..nodes {
        let place = root - 3 * tree;
        text += &line('R', &[place / 3 + 2, place % 3 + 1, root]);
    }
    text.into_bytes()
}
