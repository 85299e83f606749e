//! The plain form of books, worked out by hand from document 02, and what it is for books at random.

mod reading;

use fulgwerz::CountAnswer;
use plain::books::changes::changed;
use plain::books::random_books::random_book;
use plain::books::respelling::respelled;
use plain::books::text::lines as text;
use plain::books::Book;
use plain::random::Random;
use reading::Read;

fn written(read: &Read, room: usize) -> (CountAnswer, Vec<u8>) {
    let mut text = vec![7; room];
    let answer = plain::write_book(read.header, read.tables(), &mut text);
    let mut fast_text = vec![7; room];
    assert_eq!(plain::fast::write_book(read.header, read.tables(), &mut fast_text), answer);
    assert!(fast_text == text);
    (answer, text)
}

/// The plain form of a book, in as much room as the book takes.
fn plain_form(book: &[u8]) -> Vec<u8> {
    let (answer, mut text) = written(&Read::new(book), book.len());
    assert_eq!((answer.fault, answer.line), (0, 0));
    assert!(text[answer.count..].iter().all(|&byte| byte == 0));
    text.truncate(answer.count);
    text
}

#[track_caller]
fn is_written_as(book: &str, plain: &str) {
    let shown = |text: Vec<u8>| String::from_utf8(text).unwrap();
    assert_eq!(shown(plain_form(&text(book))), shown(text(plain)));
    assert_eq!(shown(plain_form(&text(plain))), shown(text(plain)));
}

const SPELLED: &str = "H 1 1 2 4 6 / Q 1 1 / Q 2 2 / Q 4 2 / L 0 10 / N 1 4 0 3 2 / N 2 2 2 5 4 / L 3 20 / L 4 21 / \
    L 5 22 / R 1 1 0 / R 2 1 1";
const PLAIN: &str =
    "H 1 1 2 1 6 / Q 1 2 / L 0 10 / N 1 1 0 2 3 / L 2 20 / N 3 1 2 4 5 / L 4 22 / L 5 21 / R 1 1 0 / R 2 1 1";

/// Two classes that are the same, two that no question asks about.
#[test]
fn nodes_and_classes_are_numbered_anew() {
    is_written_as(SPELLED, PLAIN);
}

#[test]
fn the_example_of_document_01_is_its_own() {
    let example = "H 1 1 2 1 4 / Q 1 1 / L 0 10 / N 1 1 0 2 3 / L 2 20 / L 3 21 / R 1 1 0 / R 2 1 1";
    is_written_as(example, example);
}

#[test]
fn classes_that_nobody_asks_about_go() {
    is_written_as("H 1 1 1 2 1 / Q 1 1 / Q 2 1 / L 0 5 / R 1 1 0", "H 1 1 1 0 1 / L 0 5 / R 1 1 0");
    is_written_as("H 3 1 1 255 1 / L 0 5 / R 1 1 0", "H 3 1 1 0 1 / L 0 5 / R 1 1 0");
}

/// It has no Q line, but the H line counts it.
#[test]
fn an_empty_class_that_is_asked_about_stays() {
    let book = "H 0 1 1 1 3 / N 0 1 0 1 2 / L 1 10 / L 2 11 / R 1 1 0";
    is_written_as(book, book);
    is_written_as("H 0 1 1 3 3 / Q 1 1 / Q 3 1 / N 0 2 0 2 1 / L 1 11 / L 2 10 / R 1 1 0", book);
}

#[test]
fn two_empty_classes_become_one() {
    is_written_as(
        "H 1 1 1 3 5 / Q 2 1 / N 0 3 0 1 4 / N 1 1 2 2 3 / L 2 10 / L 3 11 / L 4 12 / R 1 1 0",
        "H 1 1 1 1 5 / N 0 1 0 1 4 / N 1 1 2 2 3 / L 2 10 / L 3 11 / L 4 12 / R 1 1 0",
    );
}

/// The root asks for 3; its yes for 1 and 2, its no for 1 and then, in another class, for 3 again. The second phone's
/// tree stands after the first's, although its node is 0.
#[test]
fn classes_are_numbered_by_first_use_and_trees_by_root() {
    is_written_as(
        "H 1 1 3 5 11 / Q 1 1 / Q 2 1 / Q 2 2 / Q 4 3 / Q 5 3 / L 0 30 / N 1 4 0 4 3 / L 2 40 / N 3 1 1 5 6 / \
         N 4 2 2 10 9 / L 5 12 / N 6 5 2 8 7 / L 7 13 / L 8 15 / L 9 11 / L 10 10 / R 1 1 1 / R 2 1 0 / R 3 1 2",
        "H 1 1 3 3 11 / Q 1 3 / Q 2 1 / Q 2 2 / Q 3 1 / N 0 1 0 1 4 / N 1 2 2 2 3 / L 2 10 / L 3 11 / N 4 3 1 5 6 / \
         L 5 12 / N 6 1 2 7 8 / L 7 15 / L 8 13 / L 9 30 / L 10 40 / R 1 1 0 / R 2 1 9 / R 3 1 10",
    );
}

#[test]
fn trees_stand_by_phone_and_then_by_state() {
    is_written_as(
        "H 0 2 2 0 4 / L 0 22 / L 1 21 / L 2 12 / L 3 11 / R 1 1 3 / R 1 2 2 / R 2 1 1 / R 2 2 0",
        "H 0 2 2 0 4 / L 0 11 / L 1 12 / L 2 21 / L 3 22 / R 1 1 0 / R 1 2 1 / R 2 1 2 / R 2 2 3",
    );
}

/// A question stands on the yes side of another; class 1 is not used.
#[test]
fn b_lines_stay_and_r_lines_that_are_left_out_stay_out() {
    is_written_as(
        "H 0 1 3 3 6 / Q 1 1 / Q 2 2 / Q 3 2 / Q 3 3 / N 0 3 0 2 1 / L 1 22 / N 2 2 0 4 3 / L 3 21 / L 4 20 / L 5 10 / \
         B 3 2 / R 1 1 5 / R 2 1 0",
        "H 0 1 3 2 6 / Q 1 2 / Q 1 3 / Q 2 2 / L 0 10 / N 1 1 0 2 5 / N 2 2 0 3 4 / L 3 20 / L 4 21 / L 5 22 / B 3 2 / \
         R 1 1 0 / R 2 1 1",
    );
}

/// Phone 3 has an R line, which is not used; phone 4 has none.
#[test]
fn trees_that_are_not_used_are_written_too() {
    is_written_as(
        "H 0 1 4 2 7 / Q 1 3 / Q 2 2 / N 0 1 0 6 5 / N 1 2 0 4 3 / L 2 10 / L 3 21 / L 4 20 / L 5 32 / L 6 31 / \
         B 3 2 / B 4 1 / R 1 1 2 / R 2 1 1 / R 3 1 0",
        "H 0 1 4 2 7 / Q 1 2 / Q 2 3 / L 0 10 / N 1 1 0 2 3 / L 2 20 / L 3 21 / N 4 2 0 5 6 / L 5 31 / L 6 32 / \
         B 3 2 / B 4 1 / R 1 1 0 / R 2 1 1 / R 3 1 4",
    );
}

fn refused(fault: u32) -> CountAnswer {
    CountAnswer { fault, line: 0, count: 0 }
}

#[test]
fn short_is_a_byte_too_few() {
    let (read, plain) = (Read::new(&text(SPELLED)), text(PLAIN));
    for room in 0..plain.len() {
        assert_eq!(written(&read, room), (refused(33), vec![0; room]));
    }
    for beyond in [0, 1, 31, 32, 33] {
        let (answer, bytes) = written(&read, plain.len() + beyond);
        assert_eq!(answer, CountAnswer { fault: 0, line: 0, count: plain.len() });
        assert_eq!(bytes, [&plain[..], &vec![0; beyond]].concat());
    }
}

#[test]
fn foreign_comes_before_short() {
    let mut read = Read::new(&text(SPELLED));
    read.classes[4] = 1;
    for room in [0, 319, 320, 400] {
        assert_eq!(written(&read, room), (refused(18), vec![0; room]));
    }
    let mut read = Read::new(&text(SPELLED));
    read.header.nodes = 7;
    assert_eq!(written(&read, 10), (refused(18), vec![0; 10]));
}

fn form(book: &Book) -> Vec<u8> {
    plain_form(&book.text())
}

#[test]
fn other_spellings_have_the_same_form_and_other_books_another() {
    let mut random = Random::new(1);
    for _ in 0..400 {
        let book = random_book(&mut random);
        let plain = form(&book);
        assert!(plain == plain_form(&plain), "the plain form of a plain form");
        assert!(plain == form(&respelled(&book, &mut random)), "another spelling of {book:?}");
        let other = changed(&book, &mut random);
        assert!(plain != form(&other), "{book:?} and {other:?}");
        assert!(plain != form(&respelled(&other, &mut random)), "{book:?} and a spelling of {other:?}");
    }
}
