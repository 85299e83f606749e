//! Arguments, help and version.

use crate::running::{run, run_on};
use crate::texts::BOOK;
use std::ffi::OsString;
use std::os::unix::ffi::OsStringExt;

/// All commands; `same` comes last, since its mistakes have a status of their own.
const USAGES: [(&str, &str); 9] = [
    ("build", "usage: hc build BOOK [-o NETWORK]\n"),
    ("check", "usage: hc check BOOK\n"),
    ("transcribe", "usage: hc transcribe [--questions] BOOK PHONE..\n"),
    ("arcs", "usage: hc arcs NETWORK STATE\n"),
    ("plain", "usage: hc plain BOOK [-o FILE]\n"),
    ("words", "usage: hc words WORDBOOK\n"),
    ("join", "usage: hc join NETWORK WORDBOOK [-o FILE]\n"),
    ("questions", "usage: hc questions BOOK\n"),
    ("same", "usage: hc same BOOK BOOK\n"),
];

#[test]
fn no_arguments() {
    let answer = run::<&str>(&[]);
    answer.fails_with("hc: a command is needed\nusage:\n  hc build BOOK [-o NETWORK] ");
}

#[test]
fn help_for_all() {
    for arguments in [&["--help"][..], &["-h"], &["help"], &["help", "help"], &["help", "--help"]] {
        let answer = run(arguments);
        let text = String::from_utf8(answer.stdout).unwrap();
        assert!(text.starts_with("hc builds the speech recognition networks of tree books, by a proved library.\n"));
        for (_, usage) in USAGES {
            assert!(text.contains(usage.trim_start_matches("usage: ").trim_end()), "{text}");
        }
        assert!(text.contains("\nexamples:\n  hc build "));
        assert_eq!((answer.stderr.as_str(), answer.code), ("", Some(0)));
    }
}

#[test]
fn help_for_each_command() {
    for (command, usage) in USAGES {
        for arguments in [[command, "--help"], [command, "-h"], ["help", command], ["--help", command]] {
            let answer = run(&arguments);
            let text = String::from_utf8(answer.stdout).unwrap();
            assert!(text.starts_with(usage), "{text}");
            assert!(text.contains(&format!("\nexamples:\n  hc {command} ")), "{text}");
            assert_eq!((answer.stderr.as_str(), answer.code), ("", Some(0)));
        }
    }
    run(&["build", "missing", "-o", "x", "--help"]).gives(run(&["help", "build"]).stdout);
}

#[test]
fn lines_of_help_fit_a_terminal() {
    let topics = USAGES.map(|(command, _)| vec!["help", command]);
    for arguments in topics.into_iter().chain([vec!["help"]]) {
        let text = String::from_utf8(run(&arguments).stdout).unwrap();
        assert!(text.ends_with('\n') && text.lines().all(|line| line.chars().count() <= 80), "{text}");
    }
}

#[test]
fn version() {
    for option in ["--version", "-V"] {
        run(&[option]).gives(format!("hc {}\n", env!("CARGO_PKG_VERSION")));
    }
}

#[test]
fn unknown_commands() {
    run(&["bild"]).fails_with("hc: there is no command 'bild'\nusage:\n");
    run(&["help", "bild"]).fails_with("hc: there is no command 'bild'\nusage:\n");
    run(&[""]).fails_with("hc: there is no command ''\nusage:\n");
    run(&["--verbose"]).fails_with("hc: there is no command '--verbose'\nusage:\n");
    run(&[OsString::from_vec(b"\xff\x1b".to_vec())]).fails_with("hc: there is no command '\u{fffd}\\u{1b}'\nusage:\n");
}

#[test]
fn too_few_or_too_many() {
    let wanted = [
        "one BOOK is needed",
        "one BOOK is needed",
        "a BOOK and one PHONE or more are needed",
        "one NETWORK and one STATE are needed",
        "one BOOK is needed",
        "one WORDBOOK is needed",
        "one NETWORK and one WORDBOOK are needed",
        "one BOOK is needed",
    ];
    for ((command, usage), wanted) in USAGES.into_iter().zip(wanted) {
        run(&[command]).fails(&format!("hc: {wanted}\n{usage}"));
    }
    run(&["transcribe", "book"]).fails(&format!("hc: {}\n{}", wanted[2], USAGES[2].1));
    run(&["arcs", "network"]).fails(&format!("hc: {}\n{}", wanted[3], USAGES[3].1));
    run(&["build", "book", "network"]).fails(&format!("hc: {}\n{}", wanted[0], USAGES[0].1));
    run(&["check", "book", "book"]).fails(&format!("hc: {}\n{}", wanted[1], USAGES[1].1));
    run(&["arcs", "network", "1", "2"]).fails(&format!("hc: {}\n{}", wanted[3], USAGES[3].1));
    run(&["plain", "book", "book"]).fails(&format!("hc: {}\n{}", wanted[4], USAGES[4].1));
    run(&["words", "book", "book"]).fails(&format!("hc: {}\n{}", wanted[5], USAGES[5].1));
    run(&["join", "network"]).fails(&format!("hc: {}\n{}", wanted[6], USAGES[6].1));
    run(&["join", "network", "words", "words"]).fails(&format!("hc: {}\n{}", wanted[6], USAGES[6].1));
    run(&["questions", "book", "book"]).fails(&format!("hc: {}\n{}", wanted[7], USAGES[7].1));
    for arguments in [&["same"][..], &["same", "book"], &["same", "book", "book", "book"]] {
        run(arguments).decides_nothing(&format!("hc: two BOOKs are needed\n{}", USAGES[8].1));
    }
}

#[test]
fn options() {
    let usage = USAGES[0].1;
    run(&["build", "book", "-o"]).fails(&format!("hc: after -o the name of the NETWORK is needed\n{usage}"));
    run(&["plain", "book", "-o"]).fails(&format!("hc: after -o the name of the FILE is needed\n{}", USAGES[4].1));
    run(&["build", "book", "-o", "a", "-o", "b"]).fails(&format!("hc: -o is given twice\n{usage}"));
    run(&["build", "book", "--fast"]).fails(&format!("hc: there is no option '--fast'\n{usage}"));
    run(&["join", "network", "words", "-o"])
        .fails(&format!("hc: after -o the name of the FILE is needed\n{}", USAGES[6].1));
    run(&["words", "book", "-o", "x"]).fails(&format!("hc: there is no option '-o'\n{}", USAGES[5].1));
    run(&["check", "book", "--questions"]).fails(&format!("hc: there is no option '--questions'\n{}", USAGES[1].1));
    run(&["questions", "book", "-o", "x"]).fails(&format!("hc: there is no option '-o'\n{}", USAGES[7].1));
    run(&["check", "book", "-o", "x"]).fails(&format!("hc: there is no option '-o'\n{}", USAGES[1].1));
    run(&["same", "book", "book", "-o", "x"]).decides_nothing("hc: there is no option '-o'\nusage: hc same ");
    // After -- nothing is an option.
    run(&["check", "--", "-o"]).fails_with("hc: -o: No such file or directory");
    run_on(&["check", "--", "-"], BOOK)
        .gives("standard input: accepted: half-width 1, states 1, phones 2, classes 1, nodes 4\n");
}
