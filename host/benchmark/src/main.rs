//! Compares the proved build with the plain one, on the same books in the same run, and the writing of books, the
//! joining with words and the transcription of phones likewise.
//!
//!     benchmark [--largest] [NAME..]          builds of all books, and the others; or builds of those named
//!     benchmark --writing                     the writing of books alone
//!     benchmark --joining                     the joining with words alone
//!     benchmark --transcribing                the transcription of phones alone
//!     benchmark --list                        the names
//!     benchmark --only proved|plain NAME N    one side builds one book N times, for a profiler

mod builds;
mod catalogue;
mod clock;
mod joining;
mod joins;
mod measuring;
mod memory;
mod openfst;
mod tables;
mod transcribing;
mod writing;

use builds::{build, Buffers, ReadBook, Room, Side};
use catalogue::{catalogue, Measured};
use joins::MeasuredJoin;
use std::env;
use std::process::exit;

#[global_allocator]
static ALLOCATOR: memory::Counting = memory::Counting;

fn main() {
    let arguments: Vec<String> = env::args().skip(1).collect();
    let words: Vec<&str> = arguments.iter().map(String::as_str).collect();
    match words[..] {
        ["--list"] => catalogue().iter().for_each(|measured| println!("{}", measured.name)),
        ["--writing"] => compare_writing(),
        ["--joining"] => compare_joining(),
        ["--transcribing"] => compare_transcribing(),
        ["--only", side, name, times] => repeat(side, name, times),
        ["--largest", ref names @ ..] => compare(names, true),
        ref names => compare(names, false),
    }
}

fn fail(why: &str) -> ! {
    eprintln!("{why}");
    exit(2)
}

fn chosen(names: &[&str]) -> Vec<Measured> {
    let mut books = catalogue();
    for name in names {
        if !books.iter().any(|measured| measured.name == *name) {
            fail(&format!("no book is named {name}; --list shows the names"));
        }
    }
    books.retain(|measured| names.is_empty() || names.contains(&measured.name.as_str()));
    books
}

/// One side alone, lent the largest space, so that nothing is built before to know the need.
fn repeat(side: &str, name: &str, times: &str) {
    let side = match side {
        "proved" => Side::Proved,
        "plain" => Side::Plain,
        _ => fail("the side is proved or plain"),
    };
    let Ok(times) = times.parse::<usize>() else { fail("how often is a number") };
    let books = chosen(&[name]);
    memory::on_large_stack(|| {
        let book = ReadBook::new(&books[0].book);
        let mut buffers = Buffers::new(Room::LARGEST);
        for _ in 0..times {
            let answer = build(side, &book, &mut buffers);
            println!("{side:?}: {} metastates, {} arcs", answer.counts.metastates, answer.counts.arcs);
        }
    });
}

fn compare(names: &[&str], largest_room: bool) {
    let lent = if largest_room { "the largest space that a build can use" } else { "the space that the book needs" };
    println!("Both sides build from the same tables, in turn, in one process. A time is the best of at least five,");
    println!("in processor time of the one thread, so that other work on the machine does not count.");
    println!("Each side is lent {lent}, and clears all of it within the measured time.");
    println!("Answers and all lent buffers are compared, and a difference ends the run.");
    println!("Clearing is a build refused at its header (18), which clears everything lent.\n");
    let mut parts = Vec::new();
    memory::on_large_stack(|| {
        let mut kind = "";
        for Measured { name, kind: this_kind, book } in chosen(names) {
            if kind != this_kind {
                println!("{}{this_kind}:\n\n{}", if kind.is_empty() { "" } else { "\n" }, tables::speed_head());
                kind = this_kind;
            }
            let measured = measuring::measure(&ReadBook::new(&book), largest_room);
            println!("{}", tables::speed_row(&name, book.half, book.phones, &measured));
            parts.push(tables::parts_row(&name, &measured));
        }
    });
    println!("\nWhere time and memory go:\n\n{}\n{}", tables::parts_head(), parts.join("\n"));
    println!("\nPeak memory of this process, with the buffers of both sides: {} kB", memory::peak() >> 10);
    if names.is_empty() {
        println!();
        compare_writing();
        println!();
        compare_joining();
        println!();
        compare_transcribing();
    }
}

fn compare_writing() {
    println!("Both sides write the plain form of the same tables, in turn, each into the bytes that it needs.");
    println!("Answers and texts are compared. The proved side takes no heap.\n");
    println!("{}", tables::writing_head());
    memory::on_large_stack(|| {
        for Measured { name, book, .. } in catalogue::written() {
            let book = ReadBook::new(&book);
            println!("{}", tables::writing_row(&name, book.header, &writing::measure(&book)));
        }
    });
}

fn compare_joining() {
    println!("Both sides join the same network with the same words, in turn, each into the records that it needs.");
    println!("Answers and buffers are compared. The proved side takes no heap.\n");
    println!("{}", tables::joining_head());
    let joins = joins::joins();
    memory::on_large_stack(|| {
        for measured in &joins {
            println!("{}", tables::joining_row(measured, &joining::measure(measured)));
        }
    });
    compose(&joins);
}

fn compare_transcribing() {
    println!("Both sides transcribe the same million phones, at random between silences, in turn, into as many models");
    println!("as there are. Answers, models and the sums of the questions are compared.\n");
    println!("{}", tables::transcribing_head());
    for Measured { name, book, .. } in catalogue::transcribed() {
        let book = ReadBook::new(&book);
        println!("{}", tables::transcribing_row(&name, book.header, &transcribing::measure(&book)));
    }
}

/// OpenFst's composition beside them, where it is installed.
fn compose(joins: &[MeasuredJoin]) {
    if let Some(tool) = openfst::missing_tool() {
        println!("\nOpenFst's composition is not measured: its tool {tool} is not installed.");
        return;
    }
    println!("\nOpenFst composes the same, without trimming. Its time is that of a whole process, which reads two");
    println!("files and writes one; it is the best of five, by the clock on the wall. It enters FINAL also before");
    println!("all is said, where a join has no arc, so that it has a little more.\n");
    println!("{}", tables::composing_head());
    for measured in joins {
        match openfst::compose(measured) {
            Ok(composed) => println!("{}", tables::composing_row(measured.name, &composed)),
            Err(error) => println!("{} is not composed: {error}", measured.name),
        }
    }
}
