//! The books of crates/answers, with what the build program answers to them in its smaller space.

use crate::running::{run_on, Answer};

const BOOKS: &[u8] = include_bytes!("../../../../crates/answers/stdin");
const ANSWERS: &[u8] = include_bytes!("../../../../crates/answers/stdout");

/// Title and text, each beginning with '='.
fn texts(all: &[u8]) -> Vec<(&[u8], &[u8])> {
    let parts = all.split(|&byte| byte == b'=').skip(1);
    parts
        .map(|part| {
            let end = part.iter().position(|&byte| byte == b'\n').expect("a title has a line of its own");
            (&part[..end], &part[end + 1..])
        })
        .collect()
}

/// The number in a field of a line, counted from 1.
fn field(line: &[u8], place: usize) -> u32 {
    let field = std::str::from_utf8(&line[6 * place - 5..6 * place + 1]).unwrap();
    field.trim().parse().unwrap()
}

/// A long network stands there by its beginning and its length: `.. 62048 bytes`.
fn is_network(answer: &Answer, expected: &[u8]) {
    let text = std::str::from_utf8(expected).unwrap();
    match text.split_once(".. ") {
        Some((beginning, length)) => {
            assert_eq!(length.trim_end(), format!("{} bytes", answer.stdout.len()));
            assert!(answer.stdout.starts_with(beginning.as_bytes()));
            assert_eq!((answer.stderr.as_str(), answer.code), ("", Some(0)));
        }
        None => answer.gives(expected),
    }
}

#[test]
fn hc_answers_what_the_build_program_answers_where_space_is_not_the_matter() {
    let answers = texts(ANSWERS);
    let (mut networks, mut refusals, mut larger) = (0, 0, 0);
    for ((title, book), (same_title, expected)) in texts(BOOKS).into_iter().zip(answers) {
        assert_eq!(title, same_title);
        let answer = run_on(&["build", "-"], book);
        if expected.starts_with(b"W") {
            is_network(&answer, expected);
            networks += 1;
            continue;
        }
        let (fault, line) = (field(expected, 1), field(expected, 2));
        let place = if line == 0 { String::new() } else { format!(", at line {line}: ") };
        if fault < 20 || fault == 21 {
            answer.fails_with(&format!("hc: standard input: fault {fault}, "));
            assert!(answer.stderr.contains(&place), "{}", answer.stderr);
            refusals += 1;
        } else {
            // hc has more space: what it says is not that fault.
            assert!(!answer.stderr.contains(&format!("fault {fault}")), "{}", answer.stderr);
            larger += 1;
        }
    }
    assert!(networks >= 6 && refusals >= 9 && larger >= 5, "{networks} {refusals} {larger}");
}
