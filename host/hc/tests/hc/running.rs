//! Running hc, and folders for its files.

use std::ffi::OsStr;
use std::fs;
use std::io::Write;
use std::path::{Path, PathBuf};
use std::process::{Command, Output, Stdio};

pub fn hc() -> Command {
    Command::new(env!("CARGO_BIN_EXE_hc"))
}

/// What hc answered.
pub struct Answer {
    pub stdout: Vec<u8>,
    pub stderr: String,
    pub code: Option<i32>,
}

impl From<Output> for Answer {
    fn from(output: Output) -> Answer {
        let stderr = String::from_utf8(output.stderr).expect("standard error is UTF-8");
        Answer { stdout: output.stdout, stderr, code: output.status.code() }
    }
}

impl Answer {
    /// It succeeded, with this on standard output and nothing on standard error.
    #[track_caller]
    pub fn gives(&self, stdout: impl AsRef<[u8]>) {
        let expected = stdout.as_ref();
        assert_eq!(self.stderr, "");
        assert_eq!(first_difference(&self.stdout, expected), None);
        assert_eq!(self.code, Some(0));
    }

    /// It failed, with this on standard error and nothing on standard output.
    #[track_caller]
    pub fn fails(&self, stderr: &str) {
        assert_eq!(self.stderr, stderr);
        assert_eq!(self.stdout, b"");
        assert_eq!(self.code, Some(1));
    }

    /// It answered no: status 1, with this on standard output and nothing on standard error.
    #[track_caller]
    pub fn denies(&self, stdout: &str) {
        assert_eq!(self.stderr, "");
        assert_eq!(String::from_utf8_lossy(&self.stdout), stdout);
        assert_eq!(self.code, Some(1));
    }

    /// It answered neither yes nor no: status 2, standard error begins so, and nothing is on standard output.
    #[track_caller]
    pub fn decides_nothing(&self, start: &str) {
        assert!(self.stderr.starts_with(start), "{:?} does not begin with {start:?}", self.stderr);
        assert_eq!(self.stdout, b"");
        assert_eq!(self.code, Some(2));
    }

    /// It failed, and standard error begins so.
    #[track_caller]
    pub fn fails_with(&self, start: &str) {
        assert!(self.stderr.starts_with(start), "{:?} does not begin with {start:?}", self.stderr);
        assert_eq!(self.stdout, b"");
        assert_eq!(self.code, Some(1));
    }
}

/// The number of the first line that differs, with both lines.
fn first_difference(one: &[u8], other: &[u8]) -> Option<(usize, String, String)> {
    let lines = |bytes: &[u8]| -> Vec<String> {
        bytes.split_inclusive(|&byte| byte == b'\n').map(|line| line.escape_ascii().to_string()).collect()
    };
    let (one, other) = (lines(one), lines(other));
    let line = |lines: &[String], place: usize| lines.get(place).cloned().unwrap_or_default();
    (0..one.len().max(other.len()))
        .find(|&place| one.get(place) != other.get(place))
        .map(|place| (place + 1, line(&one, place), line(&other, place)))
}

pub fn run<A: AsRef<OsStr>>(arguments: &[A]) -> Answer {
    hc().args(arguments).stdin(Stdio::null()).output().expect("hc runs").into()
}

/// Runs hc with a text on its standard input.
pub fn run_on<A: AsRef<OsStr>>(arguments: &[A], text: &[u8]) -> Answer {
    let mut command = hc();
    command.args(arguments).stdin(Stdio::piped()).stdout(Stdio::piped()).stderr(Stdio::piped());
    let mut child = command.spawn().expect("hc runs");
    let mut stdin = child.stdin.take().unwrap();
    let text = text.to_vec();
    // It may end without having read everything.
    let feeder = std::thread::spawn(move || drop(stdin.write_all(&text)));
    let output = child.wait_with_output().unwrap();
    feeder.join().unwrap();
    output.into()
}

/// A folder for the files of one test, removed at its end.
pub struct Folder(PathBuf);

impl Folder {
    pub fn new(name: &str) -> Folder {
        let folder = Path::new(env!("CARGO_TARGET_TMPDIR")).join(format!("{name}-{}", std::process::id()));
        let _ = fs::remove_dir_all(&folder);
        fs::create_dir_all(&folder).unwrap();
        Folder(folder)
    }

    pub fn path(&self, name: impl AsRef<OsStr>) -> PathBuf {
        self.0.join(name.as_ref())
    }

    pub fn holding(&self, name: impl AsRef<OsStr>, bytes: &[u8]) -> PathBuf {
        let path = self.path(name);
        fs::write(&path, bytes).unwrap();
        path
    }

    /// The names of all files, sorted.
    pub fn names(&self) -> Vec<String> {
        let entries = fs::read_dir(&self.0).unwrap();
        let mut names: Vec<String> =
            entries.map(|entry| entry.unwrap().file_name().to_string_lossy().into_owned()).collect();
        names.sort();
        names
    }
}

impl Drop for Folder {
    fn drop(&mut self) {
        let _ = fs::remove_dir_all(&self.0);
    }
}
