//! What each command does.

use crate::args::Command;
use crate::books::Book;
use crate::buffers::{self, ARC};
use crate::differences;
use crate::failures::Failure;
use crate::faults;
use crate::help;
use crate::inputs::{self, LINE};
use crate::outputs;
use crate::questions;
use crate::showing;
use crate::stages::Stage;
use crate::word_books::WordBook;
use crate::word_buffers;
use crate::word_faults;
use fulgwerz::Counts;
use std::ffi::OsStr;
use std::fmt::Write;
use std::process::ExitCode;

pub fn perform(command: Command) -> Result<ExitCode, Failure> {
    let done = match command {
        Command::Build { book, network } => build(&book, &network),
        Command::Check { book } => check(&book),
        Command::Plain { book, plain } => plain_form(&book, &plain),
        Command::Same { one, other } => return same(&one, &other),
        Command::Transcribe { book, phones, questions } => transcribe(&book, &phones, questions),
        Command::Questions { book } => questions_asked(&book),
        Command::Arcs { network, state } => arcs(&network, state),
        Command::Words { words } => words_accepted(&words),
        Command::Join { network, words, joined } => join(&network, &words, &joined),
        Command::Help(verb) => outputs::to_stdout(help::text(verb).as_bytes()),
        Command::Version => outputs::to_stdout(concat!("hc ", env!("CARGO_PKG_VERSION"), "\n").as_bytes()),
    };
    done.map(|()| ExitCode::SUCCESS)
}

fn build(book: &OsStr, network: &OsStr) -> Result<(), Failure> {
    keep(book, network, "the network would replace its book")?;
    let text = build_text(&inputs::read(book)?)?;
    outputs::write(network, &text)
}

/// Refuses to write what is made from a text in its place.
fn keep(text: &OsStr, output: &OsStr, why: &str) -> Result<(), Failure> {
    if text != "-" && output != "-" && outputs::is_same_file(text, output) {
        return Err(Failure::because(format!("{}: {why}", showing::name(output))));
    }
    Ok(())
}

/// The text of a book's network.
fn build_text(book: &inputs::Text) -> Result<Vec<u8>, Failure> {
    let _stage = Stage::begin("building the network".to_string());
    let (answer, arcs) = buffers::build_book(&book.bytes);
    if answer.fault != 0 {
        return Err(faults::explain(book, answer.fault, answer.line));
    }
    if !answer.finished {
        let why = format!("{}: the build was stopped before its end: a mistake in hc, not in the text", book.name);
        return Err(Failure::because(why));
    }
    let (fault, text) = buffers::write_network(answer.counts, &arcs);
    if fault != 0 {
        return Err(faults::explain(book, fault, 0));
    }
    Ok(text)
}

fn check(book: &OsStr) -> Result<(), Failure> {
    let Book { text, header, tables } = Book::read(book)?;
    let boundaries = match (1..=header.phones).filter(|&phone| tables.plain(phone).is_some()).count() {
        0 => String::new(),
        count => format!(", boundary phones {count}"),
    };
    let accepted = format!(
        "{}: accepted: half-width {}, states {}, phones {}, classes {}, nodes {}{boundaries}\n",
        text.name, header.half, header.states, header.phones, header.classes, header.nodes
    );
    outputs::to_stdout(accepted.as_bytes())
}

fn plain_form(book: &OsStr, plain: &OsStr) -> Result<(), Failure> {
    keep(book, plain, "the plain form would replace its book")?;
    outputs::write(plain, &Book::read(book)?.plain_form()?)
}

/// Books are the same where their plain forms are, byte for byte. The trees are walked only to say what differs.
fn same(one: &OsStr, other: &OsStr) -> Result<ExitCode, Failure> {
    let (one, other) = (Book::read(one)?, Book::read(other)?);
    let names = format!("{} and {}", one.text.name, other.text.name);
    if one.plain_form()? == other.plain_form()? {
        outputs::to_stdout(format!("{names}: the same book\n").as_bytes())?;
        return Ok(ExitCode::SUCCESS);
    }
    let difference = differences::first(&one, &other);
    outputs::to_stdout(format!("{names}: not the same book\n{difference}").as_bytes())?;
    Ok(ExitCode::from(1))
}

/// Prints the models in one line, and in a second one how many questions were put, if that is asked for.
fn transcribe(book: &OsStr, phones: &[u32], with_questions: bool) -> Result<(), Failure> {
    let Book { text, header, tables } = Book::read(book)?;
    let (answer, models) = buffers::transcribe(header, &tables, phones);
    if answer.fault != 0 {
        let range = format!("(the phones of this book are 1 to {})", header.phones);
        return Err(faults::explain(&text, answer.fault, 0).adding(&range));
    }
    let models: Vec<String> = models.iter().map(u32::to_string).collect();
    let sum = if with_questions { format!("{}\n", answer.questions) } else { String::new() };
    outputs::to_stdout(format!("{}\n{sum}", models.join(" ")).as_bytes())
}

fn questions_asked(book: &OsStr) -> Result<(), Failure> {
    outputs::to_stdout(questions::table(&Book::read(book)?).as_bytes())
}

/// A network that was read and accepted: its text, its counts and its arcs.
fn read_network(network: &OsStr) -> Result<(inputs::Text, Counts, Vec<u32>), Failure> {
    let text = inputs::read(network)?;
    let (answer, arcs) = buffers::read_network(&text.bytes);
    if answer.fault != 0 {
        return Err(faults::explain(&text, answer.fault, answer.line));
    }
    Ok((text, answer.counts, arcs))
}

/// Prints the A lines of a state's arcs as they stand in the text.
fn arcs(network: &OsStr, state: u32) -> Result<(), Failure> {
    let (text, counts, arcs) = read_network(network)?;
    let part = fulgwerz::leaving(counts, &arcs, state);
    if part.fault != 0 {
        let range = format!("(the states of this network are 0 to {})", 1 + counts.states * counts.metastates);
        return Err(faults::explain(&text, part.fault, 0).adding(&range));
    }
    // The line of the counts comes first, then a line for each arc.
    let line_of = |word: usize| LINE * (1 + word / ARC);
    outputs::to_stdout(&text.bytes[line_of(part.start)..line_of(part.start + part.length)])
}

fn words_accepted(words: &OsStr) -> Result<(), Failure> {
    let book = WordBook::read(words)?;
    outputs::to_stdout(format!("{}: accepted: {}\n", book.text.name, book.describe()).as_bytes())
}

fn join(network: &OsStr, words: &OsStr, joined: &OsStr) -> Result<(), Failure> {
    keep(network, joined, "the joined network would replace its network")?;
    keep(words, joined, "the joined network would replace its word book")?;
    let (network, counts, arcs) = read_network(network)?;
    let words = WordBook::read(words)?;
    let stage = Stage::begin("joining the network with the words".to_string());
    let (answer, arcs) = word_buffers::join(counts, &arcs, &words.table);
    if answer.fault != 0 {
        return Err(word_faults::explain_join(&network.name, &words.text.name, answer.fault));
    }
    let text = joined_text(&arcs);
    drop(stage);
    outputs::write(joined, text.as_bytes())
}

/// A line for each joined arc, with tabs between its numbers, and the line of the final state.
fn joined_text(arcs: &[u32]) -> String {
    let mut text = String::new();
    for arc in arcs.chunks_exact(ARC) {
        let [from, to, model, word]: [u32; ARC] = arc.try_into().expect("an arc has four words");
        writeln!(text, "{from}\t{to}\t{model}\t{word}").expect("a string takes all that is written");
    }
    text + "1\n"
}
