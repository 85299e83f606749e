//! Compares every entry of the library with the plain implementation: answers and whole buffers, refusals too.
//!
//!     differential [CASES [SEED]]       random cases (200000), then the fixed ones
//!     differential --case NUMBER SEED   one case again, printed in full
//!     differential --fixed NUMBER       one of the fixed cases: at the ceilings, small books, and small joins

mod cases;
mod damage;
mod damage_boundaries;
mod damage_words;
mod lending;
mod lengths;
mod lent_tables;
mod outcome;
mod tally;

use cases::Case;
use outcome::Side;
use std::env;
use std::process::exit;
use std::thread;
use tally::Tally;

const CASES: u64 = 200_000;
const SEED: u64 = 1;

/// How many differences are printed, and how much of a case's input.
const SHOWN: usize = 20;
const LONGEST: usize = 100_000;

fn main() {
    let arguments: Vec<String> = env::args().skip(1).collect();
    let words: Vec<&str> = arguments.iter().map(String::as_str).collect();
    // The library keeps some megabytes on the stack of its caller.
    let run = move || match words[..] {
        [] => compare(CASES, SEED),
        ["--case", case, seed] => show(cases::case(number(seed), number(case)).as_ref()),
        ["--fixed", case] => show(cases::fixed()[number(case) as usize].as_ref()),
        [cases] => compare(number(cases), SEED),
        [cases, seed] => compare(number(cases), number(seed)),
        _ => usage(),
    };
    let same = thread::scope(|scope| {
        let thread = thread::Builder::new().stack_size(64 << 20).spawn_scoped(scope, run);
        thread.expect("a thread with a stack of 64 MB").join().expect("the comparison runs to its end")
    });
    exit(if same { 0 } else { 1 });
}

fn number(word: &str) -> u64 {
    word.parse().unwrap_or_else(|_| usage())
}

fn usage() -> ! {
    eprintln!("usage: differential [CASES [SEED]] | --case NUMBER SEED | --fixed NUMBER");
    exit(2)
}

/// Runs all cases; says whether there was no difference.
fn compare(cases: u64, seed: u64) -> bool {
    println!("seed {seed}");
    let mut tally = Tally::default();
    for number in 0..cases {
        let again = format!("--case {number} {seed}");
        compare_one(cases::case(seed, number).as_ref(), &again, &mut tally);
    }
    for (number, case) in cases::fixed().iter().enumerate() {
        compare_one(case.as_ref(), &format!("--fixed {number}"), &mut tally);
    }
    tally.print();
    println!("{} cases, {} differences", tally.cases(), tally.differences());
    tally.differences() == 0
}

/// Calls all sides, and prints the case where one differs from the library.
fn compare_one(case: &dyn Case, again: &str, tally: &mut Tally) {
    let library = case.call(Side::Library);
    let mut differences = 0;
    for &side in case.others() {
        let other = case.call(side);
        if library == other {
            continue;
        }
        differences += 1;
        if tally.differences() < SHOWN {
            println!("DIFFERENCE in {} (again by: differential {again})", case.entry());
            println!("{}\nLibrary, then {side:?}:\n{}", beginning(case.input()), library.difference(&other));
        }
    }
    tally.count(case.entry(), library.fault, differences);
}

/// A long text is cut; the case alone is shown in full.
fn beginning(text: String) -> String {
    match text.char_indices().nth(LONGEST) {
        Some((end, _)) => format!("{} ..", &text[..end]),
        None => text,
    }
}

/// One case, its input and the library's outcome in full.
fn show(case: &dyn Case) -> bool {
    println!("{}\n{}\n{:?}", case.entry(), case.input(), case.call(Side::Library));
    let mut tally = Tally::default();
    compare_one(case, "with the same words", &mut tally);
    tally.differences() == 0
}
