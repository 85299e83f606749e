//! hc questions.

use crate::running::run_on;
use crate::texts::{lines, longest_book, with_line, BOOK};

fn questions(book: &[u8]) -> crate::running::Answer {
    run_on(&["questions", "-"], book)
}

#[test]
fn the_example() {
    questions(BOOK).gives(
        "\
phone state leaves deepest average
    1     1      1       0    0.00
    2     1      2       1    1.00
        all      3       1    0.67
",
    );
}

/// Two states; phone 3 is a boundary phone, whose own tree is not used. The first tree of phone 2 asks once on its yes
/// side and three times at most on its no side.
#[test]
fn a_boundary_phone_has_its_plain_phone_s_trees() {
    let book = lines(
        "H 1 2 3 2 14 / Q 1 1 / Q 2 2 / L 0 10 / L 1 11 / N 2 1 0 3 4 / L 3 20 / N 4 2 2 5 6 / L 5 21 / N 6 1 2 7 8 / \
         L 7 22 / L 8 23 / L 9 24 / N 10 1 0 11 12 / L 11 25 / L 12 26 / L 13 27 / B 3 2 / \
         R 1 1 0 / R 1 2 1 / R 2 1 2 / R 2 2 9 / R 3 1 10 / R 3 2 13",
    );
    questions(&book).gives(
        "\
phone state leaves deepest average
    1     1      1       0    0.00
    1     2      1       0    0.00
    2     1      4       3    2.25
    2     2      1       0    0.00
    3     1      4       3    2.25  trees of phone 2
    3     2      1       0    0.00  trees of phone 2
        all      7       3    1.29
",
    );
}

/// Its last tree has 1952 questions, one below the other, so 1953 leaves, the last two of them equally deep.
#[test]
fn the_deepest_tree() {
    let text = String::from_utf8(questions(&longest_book(3)).stdout).unwrap();
    assert_eq!(text.lines().count(), 1 + 64 * 3 + 1);
    assert!(text.ends_with("   64     3   1953    1952  977.00\n        all   2144    1952  889.96\n"), "{text}");
}

/// The books of the guide, and the answers that it shows.
#[test]
fn the_guide_s_books() {
    let guide = include_str!("../../../../docs/tree-books.md");
    let one_by_one = "H 1 1 5 4 13 / Q 1 1 / Q 2 2 / Q 3 3 / Q 4 4 / L 0 10 / N 1 1 0 2 3 / L 2 21 / N 3 2 0 4 5 / \
        L 4 22 / N 5 3 0 6 7 / L 6 23 / N 7 4 0 8 9 / L 8 24 / L 9 25 / L 10 30 / L 11 40 / L 12 50 / \
        R 1 1 0 / R 2 1 1 / R 3 1 10 / R 4 1 11 / R 5 1 12";
    let halves = one_by_one
        .replace("Q 1 1 / Q 2 2 / Q 3 3", "Q 1 1 / Q 1 2 / Q 2 1 / Q 3 3")
        .replace("N 1 1 0 2 3 / L 2 21 / N 3 2 0 4 5", "N 1 1 0 2 5 / N 2 2 0 3 4 / L 3 21");
    let answered = |book: &str| String::from_utf8(questions(&lines(book)).stdout).unwrap();
    let table = answered(one_by_one);
    assert!(guide.contains(&format!("```\n{table}```\n")), "{table}");
    let table = answered(&halves);
    let second = table.lines().nth(2).unwrap();
    assert!(guide.contains(&format!("```\n{second}\n```\n")), "{table}");
}

#[test]
fn a_faulty_book() {
    let book = with_line(BOOK, 4, "N     1     1     0     1     3");
    questions(&book).fails_with("hc: standard input: fault 15, backward, at line 4: ");
}
