//! hc builds the networks of tree books in real sizes, compares books, and joins networks with word books, by the
//! proved library libfulgwerz.a.

mod args;
mod books;
mod buffers;
mod chained;
mod commands;
mod differences;
mod failures;
mod faults;
mod help;
mod inputs;
mod outputs;
mod questions;
mod ragged;
mod showing;
mod stages;
mod word_books;
mod word_buffers;
mod word_faults;

use failures::Failure;
use std::ffi::OsString;
use std::process::ExitCode;
use std::{env, thread};

/// The library keeps its working space, some megabytes, on the stack of the thread that calls it.
const STACK_BYTES: usize = 64 << 20;

fn main() -> ExitCode {
    match thread::Builder::new().stack_size(STACK_BYTES).spawn(run) {
        // A thread that panicked has said why.
        Ok(work) => work.join().unwrap_or(failed()),
        Err(error) => end(Err(Failure::because(format!("no thread to work on: {error}")))),
    }
}

fn run() -> ExitCode {
    let arguments: Vec<OsString> = env::args_os().skip(1).collect();
    end(args::parse(&arguments).and_then(commands::perform))
}

fn end(result: Result<ExitCode, Failure>) -> ExitCode {
    result.unwrap_or_else(|failure| {
        failure.say();
        failed()
    })
}

/// The status where something is wrong: 1, but 2 of `hc same`, whose 1 is the answer no.
fn failed() -> ExitCode {
    let decides = env::args_os().nth(1).is_some_and(|command| command == "same");
    ExitCode::from(if decides { 2 } else { 1 })
}
