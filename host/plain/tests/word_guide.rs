//! The guide's word books: they are read as the guide says, and give the joined network that it shows.

use fulgwerz::{Counts, Joined, Words};
use plain::books::text::lines;

const GUIDE: &str = include_str!("../../../docs/word-books.md");

/// The V lines of the guide's block that has this line, without the words to the right of them.
fn shown(line: &str) -> Vec<u8> {
    let block = GUIDE.split("```\n").find(|block| block.lines().any(|shown| shown.starts_with(line)));
    let cut = |line: &str| format!("{:31}\n", line.get(..31).unwrap_or(line));
    block.expect("a word book").lines().map(cut).collect::<String>().into_bytes()
}

/// The phones of each word of a word book.
fn words(text: &[u8]) -> Vec<Vec<u32>> {
    let mut table = vec![7; 65 * 20];
    let answer = plain::read_words(text, &mut table);
    assert_eq!((answer.fault, answer.line), (0, 0));
    table.chunks_exact(65).take(answer.count).map(|record| record[1..=record[0] as usize].to_vec()).collect()
}

#[test]
fn the_word_book_of_orders() {
    let expected: [&[u32]; 7] =
        [&[6, 7, 3], &[4, 2, 10], &[12, 14, 5, 13], &[11, 5], &[4, 7, 5], &[9, 11, 8], &[7, 10]];
    assert_eq!(words(&shown("V     7     2    10")), expected);
}

/// Words that go on after the seven.
#[test]
fn an_eighth_word() {
    let orders = shown("V     7     2    10");
    let eighth = |line: &str| words(&[orders.clone(), shown(line)].concat()).pop();
    assert_eq!(eighth("V     8     2    10"), Some(vec![7, 10]));
    assert_eq!(eighth("V     8     4     1"), Some(vec![6, 7, 3, 1, 11, 5]));
}

#[test]
fn a_table_for_six_words() {
    let answer = plain::read_words(&shown("V     7     2    10"), &mut [7; 454]);
    assert_eq!((answer.fault, answer.line), (51, 0));
    assert!(GUIDE.contains("a table of 454 numbers"));
}

/// The network of three phones that follow each other as they like.
#[test]
fn the_small_joined_network() {
    assert_eq!(shown("V     1     2     3"), lines("V 1 1 2 / V 1 2 3"));
    let mut arcs = vec![0, 2, 10, 1, 2, 1, 0, 0];
    for from in 2..5 {
        (1..=3).for_each(|phone| arcs.extend([from, phone + 1, 10 * phone, phone]));
    }
    let mut table = [0; 65];
    plain::read_words(&lines("V 1 1 2 / V 1 2 3"), &mut table);
    let (mut states, mut joined) = ([7; 18], [7; 28]);
    let counts = Counts { states: 1, metastates: 3, arcs: 11 };
    let space = Joined { states: &mut states, arcs: &mut joined };
    let answer = plain::join(counts, &arcs, Words { count: 1, table: &table }, space);
    assert_eq!((answer.fault, answer.states, answer.arcs), (0, 6, 7));
    let block = GUIDE.split("```\n").find(|block| block.starts_with("0   2 ")).expect("the joined network");
    let numbers = |line: &str| line[..20].split_whitespace().map(|number| number.parse().unwrap()).collect();
    let shown: Vec<Vec<u32>> = block.lines().map(numbers).collect();
    assert_eq!(shown[..7].concat(), joined);
    assert_eq!(shown[7..], [[1]]);
}
