//! Joined networks (document 02, P4): answers worked out by hand from the documents, by both joins.

use fulgwerz::{Counts, JoinAnswer, Joined, Words};
use plain::word_books::WordBook;

/// A network of one state a metastate, by its arcs.
struct Network {
    counts: Counts,
    arcs: Vec<u32>,
}

fn network(metastates: u32, arcs: &[[u32; 4]]) -> Network {
    Network { counts: Counts { states: 1, metastates, arcs: arcs.len() as u32 }, arcs: arcs.concat() }
}

/// Document 01's example.
fn example() -> Network {
    network(
        4,
        &[
            [0, 2, 10, 1],
            [2, 1, 0, 0],
            [2, 2, 10, 1],
            [2, 3, 20, 2],
            [3, 4, 10, 1],
            [3, 5, 21, 2],
            [4, 1, 0, 0],
            [4, 2, 10, 1],
            [4, 3, 20, 2],
            [5, 4, 10, 1],
            [5, 5, 21, 2],
        ],
    )
}

fn book(words: &[&[u32]]) -> WordBook {
    WordBook { words: words.iter().map(|word| word.to_vec()).collect() }
}

type Join = fn(Counts, &[u32], Words, Joined) -> JoinAnswer;

/// The answer and both buffers, which are the same by both joins.
fn join_words(network: &Network, words: Words, lent: [usize; 2]) -> (JoinAnswer, Vec<u32>, Vec<u32>) {
    let [one, other] = [plain::join as Join, plain::fast::join].map(|join| {
        let (mut states, mut arcs) = (vec![7; lent[0]], vec![7; lent[1]]);
        let space = Joined { states: &mut states, arcs: &mut arcs };
        (join(network.counts, &network.arcs, words, space), states, arcs)
    });
    assert_eq!(one, other);
    one
}

fn join(network: &Network, book: &WordBook, lent: [usize; 2]) -> (JoinAnswer, Vec<u32>, Vec<u32>) {
    join_words(network, Words { count: book.words.len(), table: &book.table() }, lent)
}

/// The joined network has these states and arcs, and 0 after them.
#[track_caller]
fn gives(network: &Network, words: &[&[u32]], states: &[[u32; 3]], arcs: &[[u32; 4]]) {
    let (answer, mut left_states, mut left_arcs) = join(network, &book(words), [100, 200]);
    assert_eq!((answer.fault, answer.line), (0, 0));
    assert_eq!((answer.states, answer.arcs), (states.len(), arcs.len()));
    assert!(left_states.split_off(3 * states.len()).iter().all(|&word| word == 0));
    assert!(left_arcs.split_off(4 * arcs.len()).iter().all(|&word| word == 0));
    assert_eq!(left_arcs.chunks(4).collect::<Vec<_>>(), arcs);
    assert_eq!(left_states.chunks(3).collect::<Vec<_>>(), states);
}

#[track_caller]
fn is_refused(network: &Network, words: Words, lent: [usize; 2], fault: u32) {
    let refused = JoinAnswer { fault, ..JoinAnswer::default() };
    assert_eq!(join_words(network, words, lent), (refused, vec![0; lent[0]], vec![0; lent[1]]));
}

const EXAMPLE_WORDS: [&[u32]; 2] = [&[2], &[2, 2]];

#[test]
fn the_example() {
    gives(
        &example(),
        &EXAMPLE_WORDS,
        &[[0, 0, 0], [1, 0, 2], [2, 0, 1], [2, 0, 2], [3, 0, 1], [3, 2, 1], [4, 0, 2], [5, 0, 1], [5, 2, 1]],
        &[
            [0, 2, 10, 0],
            [2, 3, 10, 0],
            [2, 4, 20, 1],
            [2, 5, 20, 2],
            [3, 1, 0, 0],
            [4, 6, 10, 0],
            [4, 7, 21, 1],
            [4, 8, 21, 2],
            [5, 7, 21, 0],
            [6, 1, 0, 0],
            [7, 6, 10, 0],
            [7, 7, 21, 1],
            [7, 8, 21, 2],
            [8, 7, 21, 0],
        ],
    );
}

#[test]
fn the_capacity() {
    let words = book(&EXAMPLE_WORDS);
    let fault = |states: usize, arcs: usize| join(&example(), &words, [states, arcs]).0.fault;
    assert_eq!(fault(27, 56), 0);
    assert_eq!(fault(26, 56), 31);
    assert_eq!(fault(27, 55), 32);
    // Fewer than two states: 31 before anything else.
    for states in 0..6 {
        assert_eq!(fault(states, 0), 31);
    }
    // Without arcs the first one is 32, unless its state is one too many.
    assert_eq!(fault(6, 0), 31);
    assert_eq!(fault(9, 0), 32);
    assert_eq!(fault(9, 3), 32);
    // One arc, then a fourth state and a second arc: the state is judged first.
    assert_eq!(fault(9, 4), 31);
    assert_eq!(fault(12, 4), 32);
    let table = words.table();
    for (lent, fault) in [([26, 60], 31), ([5, 60], 31), ([0, 0], 31), ([30, 55], 32), ([30, 3], 32)] {
        is_refused(&example(), Words { count: 2, table: &table }, lent, fault);
    }
}

/// 31 is judged only where a state is new, and 32 at every arc.
#[test]
fn known_states_need_no_room() {
    let loops = network(1, &[[0, 2, 5, 1], [2, 2, 6, 2], [2, 2, 7, 2]]);
    let fault = |states: usize, arcs: usize| join(&loops, &book(&[&[2]]), [3 * states, 4 * arcs]).0.fault;
    assert_eq!(fault(3, 3), 0);
    assert_eq!(fault(3, 2), 32);
    assert_eq!(fault(2, 3), 31);
}

#[test]
fn final_comes_second_reached_or_not() {
    gives(&network(1, &[[1, 2, 5, 0]]), &[&[2]], &[[0, 0, 0], [1, 0, 2], [2, 0, 2]], &[[1, 2, 5, 0]]);
    // Without an arc from INITIAL or FINAL there are those two alone.
    gives(&network(1, &[[2, 2, 5, 0]]), &[&[2]], &[[0, 0, 0], [1, 0, 2]], &[]);
    // FINAL has 0, 2: arcs with a phone lead nowhere, those without lead on, also back to FINAL.
    gives(
        &network(1, &[[1, 1, 5, 0], [1, 2, 6, 1], [1, 2, 7, 2], [1, 0, 8, 0]]),
        &[&[2]],
        &[[0, 0, 0], [1, 0, 2], [0, 0, 2]],
        &[[1, 1, 5, 0], [1, 2, 8, 0]],
    );
}

/// The network may have an arc with a phone into FINAL; it is taken where it is the closing silence.
#[test]
fn final_is_entered_with_0_2_alone() {
    gives(
        &network(1, &[[0, 1, 3, 1], [0, 2, 4, 1], [2, 1, 5, 0], [2, 1, 6, 1], [2, 1, 7, 2]]),
        &[&[1], &[2]],
        &[[0, 0, 0], [1, 0, 2], [2, 0, 1]],
        &[[0, 2, 4, 0], [2, 1, 6, 0]],
    );
}

/// An arc without phone keeps word and mark, wherever it leads, also in a circle.
#[test]
fn arcs_without_phone() {
    gives(
        &network(2, &[[0, 0, 1, 0], [0, 2, 2, 0], [2, 2, 3, 1], [2, 3, 4, 2], [3, 2, 5, 0], [3, 3, 6, 0]]),
        &[&[2, 2]],
        &[[0, 0, 0], [1, 0, 2], [2, 0, 0], [2, 0, 1], [2, 0, 2], [3, 1, 1], [2, 1, 1], [3, 0, 1]],
        &[
            [0, 0, 1, 0],
            [0, 2, 2, 0],
            [2, 3, 3, 0],
            [3, 4, 3, 0],
            [3, 5, 4, 1],
            [5, 6, 5, 0],
            [5, 5, 6, 0],
            [6, 7, 4, 0],
            [7, 3, 5, 0],
            [7, 7, 6, 0],
        ],
    );
}

/// Words with the same phones are words of their own.
#[test]
fn homophones() {
    let loops = network(1, &[[0, 2, 5, 1], [2, 2, 6, 2]]);
    gives(
        &loops,
        &[&[2, 2], &[2], &[2, 2], &[2]],
        &[[0, 0, 0], [1, 0, 2], [2, 0, 1], [2, 1, 1], [2, 3, 1]],
        &[[0, 2, 5, 0], [2, 3, 6, 1], [2, 2, 6, 2], [2, 4, 6, 3], [2, 2, 6, 4], [3, 2, 6, 0], [4, 2, 6, 0]],
    );
}

/// A silence after a word may close, or begin or go on with a word: closing comes first, then the words ascending.
#[test]
fn silence_inside_words() {
    let loops = network(1, &[[0, 2, 5, 1], [2, 1, 0, 0], [2, 2, 6, 1], [2, 2, 7, 2]]);
    gives(
        &loops,
        &[&[2, 1, 2], &[1, 1], &[1]],
        &[[0, 0, 0], [1, 0, 2], [2, 0, 1], [2, 0, 2], [2, 2, 1], [2, 1, 1], [2, 1, 2]],
        &[
            [0, 2, 5, 0],
            [2, 3, 6, 0],
            [2, 4, 6, 2],
            [2, 2, 6, 3],
            [2, 5, 7, 1],
            [3, 1, 0, 0],
            [4, 2, 6, 0],
            [5, 6, 6, 0],
            [6, 2, 7, 0],
        ],
    );
}

/// The words have no path, which is no fault; a state from which nothing leads on may be left of them.
#[test]
fn phones_that_the_network_lacks() {
    gives(
        &example(),
        &[&[64], &[2, 64]],
        &[[0, 0, 0], [1, 0, 2], [2, 0, 1], [2, 0, 2], [3, 2, 1]],
        &[[0, 2, 10, 0], [2, 3, 10, 0], [2, 4, 20, 2], [3, 1, 0, 0]],
    );
}

#[test]
fn foreign() {
    let words = book(&EXAMPLE_WORDS);
    let table = words.table();
    let lent = [60, 60];
    let judge = |count: usize, table: &[u32]| is_refused(&example(), Words { count, table }, lent, 18);
    for count in [0, 1, 3, 9999, 10000, usize::MAX / 65 + 1, usize::MAX] {
        judge(count, &table);
    }
    judge(0, &[]);
    judge(1, &[]);
    judge(2, &table[..129]);
    judge(2, &[&table[..], &[1]].concat());
    for (place, word) in [(0, 0), (0, 2), (0, 65), (0, u32::MAX), (1, 0), (1, 65), (2, 1), (64, 2), (65, 1), (67, 0)] {
        let mut changed = table.clone();
        changed[place] = word;
        judge(2, &changed);
    }
    let mut ten = example();
    ten.counts.arcs = 10;
    is_refused(&ten, Words { count: 2, table: &table }, lent, 18);
    // Foreign comes before the room.
    is_refused(&ten, Words { count: 2, table: &table }, [0, 0], 18);
    is_refused(&example(), Words { count: 1, table: &table }, [0, 0], 18);
    // Words beyond the counted are 0.
    let longer = [&table[..], &[0; 70]].concat();
    assert_eq!(join_words(&example(), Words { count: 2, table: &longer }, lent).0.states, 9);
}

/// 3 joined states beside a state for each later place of each word.
#[test]
fn the_most_joined_states() {
    let loops = network(1, &[[0, 2, 5, 1], [2, 2, 6, 2]]);
    let exact = plain::word_books::recipes::places_in_all(2, 65532);
    let answer = join(&loops, &exact, [3 * 65540, 4 * 70000]).0;
    assert_eq!((answer.fault, answer.states, answer.arcs), (0, 65535, 1 + 65532 + exact.words.len()));
    let more = plain::word_books::recipes::places_in_all(2, 65533);
    assert_eq!(join(&loops, &more, [3 * 65540, 4 * 70000]).0.fault, 31);
}
