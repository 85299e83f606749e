//! What the arguments ask for.

use crate::failures::Failure;
use crate::help;
use crate::showing;
use std::ffi::{OsStr, OsString};

/// What to do. A file named `-` is standard input or standard output.
#[derive(Debug, PartialEq)]
pub enum Command {
    Build { book: OsString, network: OsString },
    Check { book: OsString },
    Plain { book: OsString, plain: OsString },
    Same { one: OsString, other: OsString },
    Transcribe { book: OsString, phones: Vec<u32>, questions: bool },
    Questions { book: OsString },
    Arcs { network: OsString, state: u32 },
    Words { words: OsString },
    Join { network: OsString, words: OsString, joined: OsString },
    Help(Option<Verb>),
    Version,
}

/// The commands that work on files.
#[derive(Clone, Copy, Debug, PartialEq)]
pub enum Verb {
    Build,
    Check,
    Plain,
    Same,
    Transcribe,
    Questions,
    Arcs,
    Words,
    Join,
}

impl Verb {
    fn named(name: &OsStr) -> Option<Verb> {
        match name.to_str()? {
            "build" => Some(Verb::Build),
            "check" => Some(Verb::Check),
            "plain" => Some(Verb::Plain),
            "same" => Some(Verb::Same),
            "transcribe" => Some(Verb::Transcribe),
            "questions" => Some(Verb::Questions),
            "arcs" => Some(Verb::Arcs),
            "words" => Some(Verb::Words),
            "join" => Some(Verb::Join),
            _ => None,
        }
    }
}

/// What follows a command, sorted.
#[derive(Default)]
struct Given {
    words: Vec<OsString>,
    output: Option<OsString>,
    questions: bool,
    help: bool,
}

pub fn parse(arguments: &[OsString]) -> Result<Command, Failure> {
    let Some((first, rest)) = arguments.split_first() else {
        return Err(Failure::because(format!("a command is needed\n{}", help::USAGE)));
    };
    if let Some(verb) = Verb::named(first) {
        return command(verb, rest);
    }
    match first.to_str() {
        Some("help" | "--help" | "-h") => help_about(rest),
        Some("--version" | "-V") => Ok(Command::Version),
        _ => Err(unknown_command(first)),
    }
}

fn help_about(rest: &[OsString]) -> Result<Command, Failure> {
    let Some(topic) = rest.first() else {
        return Ok(Command::Help(None));
    };
    match (Verb::named(topic), topic.to_str()) {
        (Some(verb), _) => Ok(Command::Help(Some(verb))),
        (None, Some("help" | "--help" | "-h")) => Ok(Command::Help(None)),
        (None, _) => Err(unknown_command(topic)),
    }
}

fn unknown_command(name: &OsStr) -> Failure {
    Failure::because(format!("there is no command '{}'\n{}", showing::name(name), help::USAGE))
}

fn command(verb: Verb, rest: &[OsString]) -> Result<Command, Failure> {
    let Given { words, output, questions, help } = sort(verb, rest)?;
    if help {
        return Ok(Command::Help(Some(verb)));
    }
    let output = output.unwrap_or_else(|| "-".into());
    match (verb, words.as_slice()) {
        (Verb::Build, [book]) => Ok(Command::Build { book: book.clone(), network: output }),
        (Verb::Check, [book]) => Ok(Command::Check { book: book.clone() }),
        (Verb::Plain, [book]) => Ok(Command::Plain { book: book.clone(), plain: output }),
        (Verb::Same, [one, other]) if one == "-" && other == "-" => {
            Err(usage(verb, "only one BOOK can be standard input"))
        }
        (Verb::Same, [one, other]) => Ok(Command::Same { one: one.clone(), other: other.clone() }),
        (Verb::Transcribe, [book, phones @ ..]) if !phones.is_empty() => {
            let phones = phones.iter().map(|phone| number(verb, phone)).collect::<Result<_, _>>()?;
            Ok(Command::Transcribe { book: book.clone(), phones, questions })
        }
        (Verb::Questions, [book]) => Ok(Command::Questions { book: book.clone() }),
        (Verb::Arcs, [network, state]) => Ok(Command::Arcs { network: network.clone(), state: number(verb, state)? }),
        (Verb::Words, [words]) => Ok(Command::Words { words: words.clone() }),
        (Verb::Join, [network, words]) if network == "-" && words == "-" => {
            Err(usage(verb, "only one of NETWORK and WORDBOOK can be standard input"))
        }
        (Verb::Join, [network, words]) => {
            Ok(Command::Join { network: network.clone(), words: words.clone(), joined: output })
        }
        _ => Err(usage(verb, help::wanted(verb))),
    }
}

/// Tells options from other arguments. A negative number is no option, so that it can be refused as a number.
fn sort(verb: Verb, rest: &[OsString]) -> Result<Given, Failure> {
    let mut given = Given::default();
    let mut rest = rest.iter();
    while let Some(argument) = rest.next() {
        match argument.to_str() {
            Some("--") => given.words.extend(rest.by_ref().cloned()),
            Some("--help" | "-h") => given.help = true,
            Some("--questions") if verb == Verb::Transcribe => given.questions = true,
            Some("-o") if help::output(verb).is_some() => {
                let Some(output) = rest.next() else {
                    let what = help::output(verb).unwrap_or_default();
                    return Err(usage(verb, &format!("after -o the name of the {what} is needed")));
                };
                if given.output.replace(output.clone()).is_some() {
                    return Err(usage(verb, "-o is given twice"));
                }
            }
            _ if is_option(argument) => {
                return Err(usage(verb, &format!("there is no option '{}'", showing::name(argument))));
            }
            _ => given.words.push(argument.clone()),
        }
    }
    Ok(given)
}

fn is_option(argument: &OsStr) -> bool {
    match argument.as_encoded_bytes() {
        [b'-', second, ..] => !second.is_ascii_digit(),
        _ => false,
    }
}

/// A phone or a state.
fn number(verb: Verb, argument: &OsStr) -> Result<u32, Failure> {
    let shown = showing::name(argument);
    let (what, range) = match verb {
        Verb::Arcs => ("state", "states are numbers from 0 to 196606"),
        _ => ("phone", "phones are numbers from 1 to 64"),
    };
    let digits = argument.to_str().filter(|text| !text.is_empty() && text.bytes().all(|byte| byte.is_ascii_digit()));
    match digits.map(str::parse) {
        Some(Ok(number)) => Ok(number),
        Some(Err(_)) => Err(usage(verb, &format!("'{shown}' is too large for a {what}: {range}"))),
        None => Err(usage(verb, &format!("'{shown}' is not a {what}: {range}"))),
    }
}

fn usage(verb: Verb, why: &str) -> Failure {
    Failure::because(format!("{why}\nusage: {}", help::usage(verb)))
}
