//! Says on a terminal what the program is doing, when it takes longer than a second.

use std::io::{self, IsTerminal, Write};
use std::sync::mpsc::{self, Receiver, RecvTimeoutError, Sender};
use std::thread::{self, JoinHandle};
use std::time::Duration;

const PATIENCE: Duration = Duration::from_secs(1);

/// A stage of the work; it ends where this is dropped.
pub struct Stage {
    /// Dropping the sender tells the thread that the stage is over.
    speaker: Option<(Sender<()>, JoinHandle<()>)>,
}

impl Stage {
    pub fn begin(what: String) -> Stage {
        if !io::stderr().is_terminal() {
            return Stage { speaker: None };
        }
        let (sender, receiver) = mpsc::channel();
        let speak = move || announce(&what, PATIENCE, &receiver, &mut io::stderr());
        // Where no thread can be had, nothing is said.
        let thread = thread::Builder::new().spawn(speak);
        Stage { speaker: thread.ok().map(|thread| (sender, thread)) }
    }
}

impl Drop for Stage {
    fn drop(&mut self) {
        if let Some((sender, thread)) = self.speaker.take() {
            drop(sender);
            let _ = thread.join();
        }
    }
}

/// Waits for the stage's end; if that takes too long, says what it is, and clears the line at the end.
fn announce(what: &str, patience: Duration, over: &Receiver<()>, out: &mut impl Write) {
    if over.recv_timeout(patience) == Err(RecvTimeoutError::Timeout) {
        let _ = write!(out, "hc: {what} ..").and_then(|()| out.flush());
        let _ = over.recv();
        let _ = write!(out, "\r\x1b[K").and_then(|()| out.flush());
    }
}

#[cfg(test)]
mod tests {
    use super::*;

    #[test]
    fn a_short_stage_says_nothing() {
        let (sender, receiver) = mpsc::channel();
        drop(sender);
        let mut out = Vec::new();
        announce("building", Duration::from_secs(60), &receiver, &mut out);
        assert!(out.is_empty());
    }

    #[test]
    fn a_long_stage_is_named_and_cleared() {
        let (sender, receiver) = mpsc::channel::<()>();
        let ender = thread::spawn(move || {
            thread::sleep(Duration::from_millis(50));
            drop(sender);
        });
        let mut out = Vec::new();
        announce("building", Duration::ZERO, &receiver, &mut out);
        ender.join().unwrap();
        assert_eq!(out, b"hc: building ..\r\x1b[K");
    }
}
