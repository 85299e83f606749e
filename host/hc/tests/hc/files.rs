//! Files that are read and written.

use crate::running::{run, run_on, Answer, Folder};
use crate::texts::{with_line, BOOK, NETWORK};
use std::ffi::{OsStr, OsString};
use std::fs;
use std::io::Read;
use std::os::unix::ffi::OsStringExt;
use std::os::unix::fs::{symlink, FileTypeExt, PermissionsExt};
use std::path::Path;
use std::process::Command;
use std::thread;

fn build(book: &Path, network: &Path) -> Answer {
    run(&[OsStr::new("build"), book.as_os_str(), OsStr::new("-o"), network.as_os_str()])
}

#[test]
fn a_new_file() {
    let folder = Folder::new("files-new");
    let book = folder.holding("book", BOOK);
    build(&book, &folder.path("network")).gives("");
    assert_eq!(fs::read(folder.path("network")).unwrap(), NETWORK);
    assert_eq!(folder.names(), ["book", "network"]);
}

/// Who still reads the old file reads all of it: nothing is written over.
#[test]
fn a_file_that_is_replaced_keeps_its_permissions() {
    let folder = Folder::new("files-replaced");
    let book = folder.holding("book", BOOK);
    let network = folder.holding("network", &[b'x'; 1000]);
    fs::set_permissions(&network, fs::Permissions::from_mode(0o640)).unwrap();
    let mut old = fs::File::open(&network).unwrap();
    build(&book, &network).gives("");
    let mut kept = Vec::new();
    old.read_to_end(&mut kept).unwrap();
    assert_eq!(kept, [b'x'; 1000]);
    assert_eq!(fs::read(&network).unwrap(), NETWORK);
    assert_eq!(fs::metadata(&network).unwrap().permissions().mode() & 0o777, 0o640);
    assert_eq!(folder.names(), ["book", "network"]);
}

#[test]
fn a_name_in_the_present_folder() {
    let folder = Folder::new("files-present");
    folder.holding("book", BOOK);
    let mut command = crate::running::hc();
    let output = command.current_dir(folder.path("")).args(["build", "book", "-o", "network"]).output().unwrap();
    Answer::from(output).gives("");
    assert_eq!(fs::read(folder.path("network")).unwrap(), NETWORK);
}

#[test]
fn a_refused_book_leaves_everything_as_it_was() {
    let folder = Folder::new("files-refused");
    let book = folder.holding("book", &with_line(BOOK, 2, "q     1     1"));
    let network = folder.holding("network", b"old");
    build(&book, &network).fails_with(&format!("hc: {}: fault 12, misprint, at line 2: ", book.display()));
    build(&book, &folder.path("new")).fails_with(&format!("hc: {}: fault 12, misprint, at line 2: ", book.display()));
    assert_eq!(fs::read(&network).unwrap(), b"old");
    assert_eq!(folder.names(), ["book", "network"]);
}

#[test]
fn a_link_stays_a_link() {
    let folder = Folder::new("files-link");
    let book = folder.holding("book", BOOK);
    fs::create_dir(folder.path("elsewhere")).unwrap();
    let target = folder.holding("elsewhere/network", b"old");
    symlink("elsewhere/network", folder.path("link")).unwrap();
    build(&book, &folder.path("link")).gives("");
    assert_eq!(fs::read_link(folder.path("link")).unwrap(), Path::new("elsewhere/network"));
    assert_eq!(fs::read(target).unwrap(), NETWORK);
}

#[test]
fn a_named_pipe_is_written_to() {
    let folder = Folder::new("files-pipe");
    let book = folder.holding("book", BOOK);
    let pipe = folder.path("pipe");
    assert!(Command::new("mkfifo").arg(&pipe).status().unwrap().success());
    let reader = thread::spawn({
        let pipe = pipe.clone();
        move || fs::read(pipe).unwrap()
    });
    build(&book, &pipe).gives("");
    assert_eq!(reader.join().unwrap(), NETWORK);
    assert!(fs::metadata(&pipe).unwrap().file_type().is_fifo());
}

#[test]
fn names_that_are_no_utf_8() {
    let folder = Folder::new("files-names");
    let book = folder.holding(OsString::from_vec(b"b\xff\xfe".to_vec()), BOOK);
    let network = folder.path(OsString::from_vec(b"n\xff".to_vec()));
    build(&book, &network).gives("");
    assert_eq!(fs::read(&network).unwrap(), NETWORK);
    let missing = folder.path(OsString::from_vec(b"m\xff".to_vec()));
    build(&missing, &network)
        .fails_with(&format!("hc: {}: No such file or directory", folder.path("m\u{fffd}").display()));
}

#[test]
fn a_name_as_long_as_a_name_can_be() {
    let folder = Folder::new("files-long");
    let book = folder.holding("book", BOOK);
    let network = folder.path("n".repeat(255));
    build(&book, &network).gives("");
    assert_eq!(fs::read(&network).unwrap(), NETWORK);
}

#[test]
fn the_book_is_not_replaced_by_its_network() {
    let folder = Folder::new("files-same");
    let book = folder.holding("book", BOOK);
    symlink("book", folder.path("link")).unwrap();
    let link = folder.path("link");
    build(&book, &book).fails(&format!("hc: {}: the network would replace its book\n", book.display()));
    build(&book, &link).fails(&format!("hc: {}: the network would replace its book\n", link.display()));
    assert_eq!(fs::read(&book).unwrap(), BOOK);
}

#[test]
fn files_that_can_not_be_written() {
    let folder = Folder::new("files-unwritable");
    let book = folder.holding("book", BOOK);
    let (nowhere, inside) = (folder.path("nowhere/network"), folder.path("book/network"));
    build(&book, &nowhere).fails_with(&format!("hc: {}: No such file or directory", nowhere.display()));
    build(&book, &inside).fails_with(&format!("hc: {}: Not a directory", inside.display()));
    build(&book, &folder.path("")).fails_with(&format!("hc: {}: Is a directory", folder.path("").display()));
    build(&book, Path::new("")).fails_with("hc: : not the name of a file");
    build(&book, &folder.path("new/")).fails_with(&format!("hc: {}: ", folder.path("new/").display()));
    assert_eq!(folder.names(), ["book"]);
}

#[test]
fn files_that_can_not_be_read() {
    let folder = Folder::new("files-unreadable");
    let missing = folder.path("missing");
    for command in ["build", "check"] {
        run(&[OsStr::new(command), missing.as_os_str()])
            .fails_with(&format!("hc: {}: No such file or directory", missing.display()));
        run(&[OsStr::new(command), folder.path("").as_os_str()])
            .fails_with(&format!("hc: {}: Is a directory", folder.path("").display()));
    }
    run(&[OsStr::new("transcribe"), missing.as_os_str(), OsStr::new("1")])
        .fails_with(&format!("hc: {}: No such file or directory", missing.display()));
    run(&[OsStr::new("arcs"), missing.as_os_str(), OsStr::new("1")])
        .fails_with(&format!("hc: {}: No such file or directory", missing.display()));
}

#[test]
fn a_text_without_end() {
    let why = "longer than 64000000 bytes, which no book and no network is\n";
    run(&["check", "/dev/zero"]).fails(&format!("hc: /dev/zero: {why}"));
    run(&["arcs", "/dev/zero", "0"]).fails(&format!("hc: /dev/zero: {why}"));
    let zeros = fs::File::open("/dev/zero").unwrap();
    let output = crate::running::hc().args(["check", "-"]).stdin(zeros).output().unwrap();
    Answer::from(output).fails(&format!("hc: standard input: {why}"));
}

/// Longer than any book, but a text whose fault can be found.
#[test]
fn a_book_of_a_million_bytes() {
    let book = BOOK.repeat(4000);
    run_on(&["check", "-"], &book).fails_with("hc: standard input: fault 17, count, at line 9: ");
}
