//! Books that were read and accepted.

use crate::buffers::{self, BookTables};
use crate::failures::Failure;
use crate::faults;
use crate::inputs::{self, Text};
use fulgwerz::Header;
use std::ffi::OsStr;

pub struct Book {
    pub text: Text,
    pub header: Header,
    pub tables: BookTables,
}

impl Book {
    /// Reads the file; `-` is standard input.
    pub fn read(path: &OsStr) -> Result<Book, Failure> {
        let text = inputs::read(path)?;
        let (answer, tables) = buffers::read_book(&text.bytes);
        if answer.fault != 0 {
            return Err(faults::explain(&text, answer.fault, answer.line));
        }
        Ok(Book { text, header: answer.header, tables })
    }

    /// The text of its plain form, which is never longer than its own: that is proved.
    pub fn plain_form(&self) -> Result<Vec<u8>, Failure> {
        let (fault, text) = buffers::write_book(self.header, &self.tables, self.text.bytes.len());
        if fault != 0 {
            return Err(faults::explain(&self.text, fault, 0));
        }
        Ok(text)
    }
}
