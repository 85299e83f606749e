//! hc transcribe.

use crate::running::run_on;
use crate::texts::{longest_book, plain_book, with_line, BOOK};

fn transcribe(book: &[u8], phones: &[&str]) -> crate::running::Answer {
    run_on(&[&["transcribe", "-"], phones].concat(), book)
}

#[test]
fn the_example() {
    transcribe(BOOK, &["1"]).gives("10\n");
    transcribe(BOOK, &["1", "2", "1"]).gives("10 20 10\n");
    transcribe(BOOK, &["1", "2", "2", "1"]).gives("10 20 21 10\n");
    transcribe(BOOK, &["--", "1", "02", "1"]).gives("10 20 10\n");
}

#[test]
fn a_model_for_each_state() {
    transcribe(&plain_book(1, 3, 2), &["1", "2", "1"]).gives("1 2 3 4 5 6 1 2 3\n");
}

#[test]
fn how_many_questions_were_put() {
    let questions = |book: &[u8], phones: &[&str]| transcribe(book, &[&["--questions"], phones].concat());
    questions(BOOK, &["1"]).gives("10\n0\n");
    questions(BOOK, &["1", "2", "1"]).gives("10 20 10\n1\n");
    questions(BOOK, &["1", "2", "2", "1"]).gives("10 20 21 10\n2\n");
    questions(&plain_book(1, 3, 2), &["1", "2", "1"]).gives("1 2 3 4 5 6 1 2 3\n0\n");
    questions(&longest_book(3), &["1", "64", "64", "1"]).gives("1 2 3 190 191 1000 190 191 1000 1 2 3\n2\n");
    run_on(&["transcribe", "-", "1", "2", "1", "--questions"], BOOK).gives("10 20 10\n1\n");
}

#[test]
fn utterance() {
    let message = "hc: standard input: fault 41, utterance: the phones must begin and end with silence, which is \
        phone 1, be phones of the book, and be no more than 1000000\n  (the phones of this book are 1 to 2)\n";
    for phones in [&["2", "1"][..], &["1", "2"], &["1", "3", "1"], &["1", "0", "1"], &["1", "4294967295", "1"]] {
        transcribe(BOOK, phones).fails(message);
    }
}

#[test]
fn phones_that_are_no_numbers() {
    let usage = "phones are numbers from 1 to 64\nusage: hc transcribe [--questions] BOOK PHONE..\n";
    transcribe(BOOK, &["1", "4294967296"]).fails(&format!("hc: '4294967296' is too large for a phone: {usage}"));
    transcribe(BOOK, &["99999999999999999999"])
        .fails(&format!("hc: '99999999999999999999' is too large for a phone: {usage}"));
    transcribe(BOOK, &["1", "-1"]).fails(&format!("hc: '-1' is not a phone: {usage}"));
    transcribe(BOOK, &["a"]).fails(&format!("hc: 'a' is not a phone: {usage}"));
    transcribe(BOOK, &["+1"]).fails(&format!("hc: '+1' is not a phone: {usage}"));
    transcribe(BOOK, &[""]).fails(&format!("hc: '' is not a phone: {usage}"));
}

#[test]
fn a_faulty_book_comes_before_the_phones() {
    let book = with_line(BOOK, 4, "N     1     1     0     1     3");
    transcribe(&book, &["2"]).fails(
        "hc: standard input: fault 15, backward, at line 4: a child's number must be greater than its node's\n  \
         N     1     1     0     1     3\n",
    );
}
