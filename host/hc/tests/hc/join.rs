//! hc join.

use crate::running::{hc, run, run_on, Answer, Folder};
use crate::texts::{line, lines, plain_book, with_line, BOOK, NETWORK};
use std::ffi::OsStr;
use std::fs;

const WORDS: &str = "V 1 1 2 / V 2 1 2 / V 2 2 2";

/// Document 01's example joined with these words.
const JOINED: &str = "0 2 10 0 / 2 3 10 0 / 2 4 20 1 / 2 5 20 2 / 3 1 0 0 / 4 6 10 0 / 4 7 21 1 / 4 8 21 2 / \
    5 7 21 0 / 6 1 0 0 / 7 6 10 0 / 7 7 21 1 / 7 8 21 2 / 8 7 21 0 / 1";

/// Lines with tabs, from blanks and strokes.
fn joined(text: &str) -> String {
    text.split(" / ").map(|row| format!("{}\n", row.replace(' ', "\t"))).collect()
}

/// A network in the file `network` joined with words in the file `words`; the names in the answer are those.
fn join(test: &str, network: &[u8], words: &[u8]) -> Answer {
    let folder = Folder::new(test);
    folder.holding("network", network);
    folder.holding("words", words);
    hc().current_dir(folder.path("")).args(["join", "network", "words"]).output().unwrap().into()
}

#[test]
fn the_example() {
    join("join-example", NETWORK, &lines(WORDS)).gives(joined(JOINED));
}

#[test]
fn one_from_standard_input() {
    let folder = Folder::new("join-stdin");
    let (network, words) = (folder.holding("network", NETWORK), folder.holding("words", &lines(WORDS)));
    run_on(&[OsStr::new("join"), OsStr::new("-"), words.as_os_str()], NETWORK).gives(joined(JOINED));
    run_on(&[OsStr::new("join"), network.as_os_str(), OsStr::new("-")], &lines(WORDS)).gives(joined(JOINED));
    let usage = "usage: hc join NETWORK WORDBOOK [-o FILE]\n";
    run(&["join", "-", "-"]).fails(&format!("hc: only one of NETWORK and WORDBOOK can be standard input\n{usage}"));
}

#[test]
fn to_a_file() {
    let folder = Folder::new("join-file");
    let (network, words) = (folder.holding("network", NETWORK), folder.holding("words", &lines(WORDS)));
    let file = folder.holding("file", b"old");
    let to = |output: &OsStr| {
        run(&[OsStr::new("join"), network.as_os_str(), words.as_os_str(), OsStr::new("-o"), output])
    };
    to(file.as_os_str()).gives("");
    assert_eq!(fs::read_to_string(&file).unwrap(), joined(JOINED));
    assert_eq!(folder.names(), ["file", "network", "words"]);
    to(network.as_os_str())
        .fails(&format!("hc: {}: the joined network would replace its network\n", network.display()));
    to(words.as_os_str()).fails(&format!("hc: {}: the joined network would replace its word book\n", words.display()));
    assert_eq!(fs::read(&words).unwrap(), lines(WORDS));
    // A refusal leaves the file as it was.
    fs::write(&words, lines("V 1 1 65")).unwrap();
    to(file.as_os_str()).fails_with(&format!("hc: {}: fault 13, range, at line 1: ", words.display()));
    assert_eq!(fs::read_to_string(&file).unwrap(), joined(JOINED));
}

/// The network's faults are told first, in its own name, then the word book's.
#[test]
fn faults_of_either_text() {
    let network = with_line(NETWORK, 12, "A     5     6    21     2");
    join("join-network", &network, b"").fails_with("hc: network: fault 13, range, at line 12: a number is too small ");
    join("join-words", NETWORK, b"").fails_with("hc: words: fault 11, ragged: ");
    join("join-words", NETWORK, &lines("V 1 1 2 / V 3 1 2"))
        .fails_with("hc: words: fault 14, order, at line 2: after word 1, place 1 comes word 1, place 2, or word 2, ");
    join("join-book", BOOK, &lines(WORDS)).fails_with("hc: network: fault 12, misprint, at line 1: ");
}

/// The guide shows the arcs beside what they are.
#[test]
fn the_small_network_of_the_guide() {
    let guide = include_str!("../../../../docs/word-books.md");
    let book = "H 0 1 3 0 3 / L 0 10 / L 1 20 / L 2 30 / R 1 1 0 / R 2 1 1 / R 3 1 2";
    let network = run_on(&["build", "-"], &lines(book));
    let answer = join("join-guide", &network.stdout, &lines("V 1 1 2 / V 1 2 3"));
    let block = guide.split("```\n").find(|block| block.starts_with("0   2 ")).expect("the joined network");
    let numbers = |line: &str| line.get(..20).unwrap_or(line).split_whitespace().collect::<Vec<_>>().join("\t") + "\n";
    answer.gives(block.lines().map(numbers).collect::<String>());
}

/// At half-width 0 with one state a phone, 40 phones: 9999 words of 5 phones take 4 states each, one for each phone
/// that ends a word, and four more; after each of the 39 phones and silence there is an arc for each word.
#[test]
fn more_than_is_lent_first() {
    let network = run_on(&["build", "-"], &plain_book(0, 1, 40)).stdout;
    let mut words = String::new();
    for word in 1..=9999 {
        (1..=5).for_each(|place| words += &line('V', &[word, place, 2 + (word * place) % 39]));
    }
    let answer = join("join-many", &network, words.as_bytes());
    assert_eq!((answer.stderr.as_str(), answer.code), ("", Some(0)));
    let text = String::from_utf8(answer.stdout).unwrap();
    let states = text.lines().flat_map(|line| line.split('\t').take(2));
    let highest = states.map(|state| state.parse::<u32>().unwrap()).max();
    assert_eq!(highest, Some(4 * 9999 + 39 + 4 - 1));
    // From INITIAL, and the words' own; then closing silence after each of 40, and the arc to FINAL.
    assert_eq!(text.lines().count(), 1 + 40 * 9999 + 4 * 9999 + 40 + 1 + 1);
}

#[test]
fn crowd() {
    let network = run_on(&["build", "-"], &plain_book(0, 1, 3)).stdout;
    let mut words = String::new();
    for word in 1..=9999 {
        (1..=9).for_each(|place| words += &line('V', &[word, place, 2]));
    }
    join("join-crowd", &network, words.as_bytes()).fails(
        "hc: network with words: fault 31, crowd: the joined network needs more than 65535 states, the most that can \
         be joined; fewer or shorter words, or a network of a smaller half-width, help most\n",
    );
}

/// Words of one phone each, which is one of ten: between words there is a state for each pair of these, and for silence
/// before each, and one after the first silence, 111 in all.
#[test]
fn tangle() {
    let network = run_on(&["build", "-"], &plain_book(1, 2, 11)).stdout;
    let words: String = (1..=9999).map(|word| line('V', &[word, 1, 2 + word % 10])).collect();
    join("join-tangle", &network, words.as_bytes()).fails(
        "hc: network with words: fault 32, tangle: the joined network needs more than 999999 arcs, the most that can \
         be joined; fewer words, or a network of a smaller half-width, help most\n",
    );
}
