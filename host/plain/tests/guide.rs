//! The guide's book with a boundary phone and its two books with walks of different lengths: what the guide says about
//! them is so.

mod reading;

use plain::books::text::lines;
use reading::Read;

const GUIDE: &str = include_str!("../../../docs/tree-books.md");

/// As the guide shows it, beside the words that it puts to the right of the lines.
const DIALECT: &str = "H 1 1 4 2 7 / Q 1 4 / Q 2 2 / Q 2 4 / L 0 10 / N 1 1 1 2 3 / L 2 21 / L 3 20 / N 4 2 2 5 6 / \
    L 5 30 / L 6 31 / B 4 2 / R 1 1 0 / R 2 1 1 / R 3 1 4";

/// The models of a row of phones, and the same as the guide writes them.
fn models(book: &str, phones: &[u32]) -> String {
    let read = Read::new(&lines(book));
    let mut models = vec![0; phones.len()];
    assert_eq!(plain::transcribe(read.header, read.tables(), phones, &mut models).fault, 0);
    models.iter().map(u32::to_string).collect::<Vec<_>>().join(" ")
}

#[track_caller]
fn gives(book: &str, phones: &[u32], given: &str) {
    assert_eq!(models(book, phones), given);
    assert!(GUIDE.contains(&format!("models {given}")), "{given}");
}

#[test]
fn the_guide_shows_the_book() {
    assert_eq!(shown("B     4     2"), lines(DIALECT));
}

#[test]
fn its_models() {
    gives(DIALECT, &[1, 3, 2, 3, 1], "10 30 20 31 10");
    gives(DIALECT, &[1, 3, 4, 1], "10 30 21 10");
    gives(&DIALECT.replace("Q 2 4 / ", ""), &[1, 3, 4, 1], "10 31 21 10");
    let own = DIALECT.replace("2 7 /", "2 8 /").replace("L 6 31 /", "L 6 31 / L 7 40 /") + " / R 4 1 7";
    gives(&own, &[1, 3, 4, 1], "10 30 21 10");
}

#[test]
fn a_chain_is_refused() {
    let fifth = DIALECT.replace("H 1 1 4", "H 1 1 5").replace("B 4 2 /", "B 4 2 / B 5 4 /");
    let (answer, _) = Read::answered(&lines(&fifth));
    assert_eq!((answer.fault, answer.line), (21, 13));
    assert_eq!(models(&fifth.replace("B 5 4", "B 5 2"), &[1, 3, 5, 1]), "10 31 20 10");
}

/// Phone 2 has a model of its own after each phone: its tree asks for one after the other, or for halves first.
const ONE_BY_ONE: &str = "H 1 1 5 4 13 / Q 1 1 / Q 2 2 / Q 3 3 / Q 4 4 / L 0 10 / N 1 1 0 2 3 / L 2 21 / N 3 2 0 4 5 / \
    L 4 22 / N 5 3 0 6 7 / L 6 23 / N 7 4 0 8 9 / L 8 24 / L 9 25 / L 10 30 / L 11 40 / L 12 50 / \
    R 1 1 0 / R 2 1 1 / R 3 1 10 / R 4 1 11 / R 5 1 12";

const HALVES: [&str; 2] = [
    "Q 1 1 / Q 1 2 / Q 2 1 / Q 3 3 / Q 4 4",
    "N 1 1 0 2 5 / N 2 2 0 3 4 / L 3 21 / L 4 22 / N 5 3 0 6 7",
];

fn halves() -> String {
    ONE_BY_ONE
        .replace("Q 1 1 / Q 2 2 / Q 3 3 / Q 4 4", HALVES[0])
        .replace("N 1 1 0 2 3 / L 2 21 / N 3 2 0 4 5 / L 4 22 / N 5 3 0 6 7", HALVES[1])
}

/// The lines of the guide's block that has this line, without the words to their right.
fn shown(line: &str) -> Vec<u8> {
    let block = GUIDE.split("```\n").find(|block| block.contains(line)).expect("the book");
    block.lines().map(|line| format!("{:31}\n", line.get(..31).unwrap_or(line))).collect::<String>().into_bytes()
}

#[test]
fn the_guide_shows_the_walks() {
    assert_eq!(shown("N     1     1     0     2     3     phone 2"), lines(ONE_BY_ONE));
    assert_eq!(shown("N     1     1     0     2     5     phone 2"), lines(&HALVES.join(" / ")));
}

#[track_caller]
fn puts(book: &str, phones: &[u32], given: &str, questions: u64) {
    let read = Read::new(&lines(book));
    let answer = plain::transcribe(read.header, read.tables(), phones, &mut vec![0; phones.len()]);
    assert_eq!(answer.questions, questions);
    gives(book, phones, given);
}

#[test]
fn its_walks() {
    puts(ONE_BY_ONE, &[1, 4, 2, 5, 2, 1], "10 40 24 50 25 10", 8);
    puts(&halves(), &[1, 4, 2, 5, 2, 1], "10 40 24 50 25 10", 6);
    puts(ONE_BY_ONE, &[1, 2, 1, 2, 1], "10 21 10 21 10", 2);
    puts(&halves(), &[1, 2, 1, 2, 1], "10 21 10 21 10", 4);
}
