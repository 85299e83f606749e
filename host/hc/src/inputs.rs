//! Reading a book, a network or a word book whole, from a file or standard input.

use crate::failures::Failure;
use crate::showing;
use crate::stages::Stage;
use std::ffi::OsStr;
use std::fs::File;
use std::io::{self, Read};

/// Bytes of a line, its line feed included.
pub const LINE: usize = 32;

/// Twice the longest network, which has a million lines; the longest book has 20672, the longest word book 639936. The
/// library finds what is wrong with a text up to this length; what is longer is not kept in memory.
const LONGEST: u64 = 64_000_000;

pub struct Text {
    pub name: String,
    pub bytes: Vec<u8>,
}

/// Reads the file; `-` is standard input.
pub fn read(path: &OsStr) -> Result<Text, Failure> {
    let name = if path == "-" { "standard input".to_string() } else { showing::name(path) };
    let _stage = Stage::begin(format!("reading {name}"));
    let bytes = read_bytes(path).map_err(|error| Failure::file(&name, &error))?;
    if bytes.len() as u64 > LONGEST {
        let why = format!("{name}: longer than {LONGEST} bytes, which no book and no network is");
        return Err(Failure::because(why));
    }
    Ok(Text { name, bytes })
}

/// At most one byte more than the longest text.
fn read_bytes(path: &OsStr) -> io::Result<Vec<u8>> {
    let mut bytes = Vec::new();
    if path == "-" {
        io::stdin().lock().take(LONGEST + 1).read_to_end(&mut bytes)?;
    } else {
        File::open(path)?.take(LONGEST + 1).read_to_end(&mut bytes)?;
    }
    Ok(bytes)
}
