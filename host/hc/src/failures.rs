//! Why a command ends without its answer.

use std::io::{self, Write};

#[derive(Debug)]
pub struct Failure {
    /// What standard error is told; nothing where nobody is left to read the answer.
    message: Option<String>,
}

impl Failure {
    pub fn because(message: impl Into<String>) -> Failure {
        Failure { message: Some(message.into()) }
    }

    /// A file that could not be read or written.
    pub fn file(name: &str, error: &io::Error) -> Failure {
        Failure::because(format!("{name}: {error}"))
    }

    /// The reader of standard output has gone away.
    pub fn silent() -> Failure {
        Failure { message: None }
    }

    /// Adds a line that says more.
    pub fn adding(self, detail: &str) -> Failure {
        Failure { message: self.message.map(|message| format!("{message}\n  {detail}")) }
    }

    /// An error of writing to standard error is not reported: there is nowhere left.
    pub fn say(&self) {
        if let Some(message) = &self.message {
            let _ = writeln!(io::stderr(), "hc: {message}");
        }
    }
}
