//! The meeting of two matrices (document 02, P3), and the text that the program `meetings` prints about it.

use plain::matrix::{is_valid, meet, words_of, Matrix, Meeting};

const PRINTED: &str = include_str!("../../../crates/meetings/stdout");

/// The three columns of a matrix at half-width 1, each with phone 1, phone 2 or both, by its number from 0 to 26.
fn columns(number: u64) -> Matrix {
    vec![1 + number / 9, 1 + number / 3 % 3, 1 + number % 3]
}

/// Each number with a blank before it.
fn numbers(words: &[u64]) -> String {
    words.iter().map(|word| format!(" {word}")).collect()
}

/// A matrix with each of the 27, itself among them.
fn row(one: Matrix) -> String {
    let cell = |number| {
        let met = meet(&one, &columns(number));
        format!(" {}{}", met.columns, if is_valid(&met.matrix) { '*' } else { '.' })
    };
    let cells: String = (0..27).map(cell).collect();
    format!("{} |{cells}\n", numbers(&one))
}

/// Seven words are given, of which the half-width's columns count; one of them has nothing in common.
fn column_by_column(half: usize, empty: usize) -> String {
    let (fives, mut sevens) = ([5; 7], [7; 7]);
    sevens[empty] = 2;
    let width = 2 * half + 1;
    let met = meet(&fives[..width].to_vec(), &sevens[..width].to_vec());
    format!("n {half}, column {empty}: met {}:{}\n", met.columns, numbers(&words_of(&met.matrix)))
}

fn text() -> String {
    let title = "At half-width 1, all pairs with columns of phones 1 and 2: columns met, * where valid";
    let mut text = format!("{title}\n");
    (0..27).for_each(|number| text.push_str(&row(columns(number))));
    text.push_str("Column by column: columns 5 meet columns 7, but one column is 2\n");
    for half in 0..=3 {
        (0..7).for_each(|empty| text.push_str(&column_by_column(half, empty)));
    }
    text
}

#[test]
fn the_program_prints_the_text() {
    for (printed, line) in PRINTED.lines().zip(text().lines()) {
        assert_eq!(printed, line);
    }
    assert_eq!(PRINTED, text());
}

/// Two matrices meet, either first, in this matrix and after so many columns.
#[track_caller]
fn gives(one: &[u64], other: &[u64], matrix: &[u64], columns: usize) {
    let expected = Meeting { matrix: matrix.to_vec(), columns };
    assert_eq!(meet(&one.to_vec(), &other.to_vec()), expected);
    assert_eq!(meet(&other.to_vec(), &one.to_vec()), expected);
}

#[test]
fn a_valid_meeting_has_all_columns() {
    gives(&[3], &[2], &[2], 1);
    gives(&[3, 1, 3], &[2, 1, 3], &[2, 1, 3], 3);
    gives(&[u64::MAX; 7], &[1 << 63; 7], &[1 << 63; 7], 7);
}

#[test]
fn an_invalid_one_ends_at_the_first_empty_column() {
    gives(&[1], &[2], &[0], 1);
    gives(&[1, 3, 3], &[2, 3, 3], &[0; 3], 1);
    gives(&[3, 1, 3], &[3, 2, 3], &[0; 3], 2);
    gives(&[3, 1, 1], &[3, 2, 2], &[0; 3], 2);
    gives(&[1; 7], &[1, 1, 1, 2, 1, 2, 1], &[0; 7], 4);
}

#[test]
fn an_empty_last_column_has_the_number_of_a_valid_one() {
    gives(&[3, 1, 1], &[3, 1, 2], &[0; 3], 3);
    gives(&[1; 7], &[1, 1, 1, 1, 1, 1, 2], &[0; 7], 7);
}
