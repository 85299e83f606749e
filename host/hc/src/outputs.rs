//! Writing to standard output, and to a file that is never left half written.

use crate::failures::Failure;
use crate::showing;
use crate::stages::Stage;
use std::ffi::OsStr;
use std::fs::{self, File, OpenOptions, Permissions};
use std::io::{self, ErrorKind, Write};
use std::path::{Path, PathBuf};
use std::process;

/// Writes the bytes to the file; `-` is standard output.
pub fn write(path: &OsStr, bytes: &[u8]) -> Result<(), Failure> {
    if path == "-" {
        return to_stdout(bytes);
    }
    let name = showing::name(path);
    let _stage = Stage::begin(format!("writing {name}"));
    to_file(Path::new(path), bytes).map_err(|error| Failure::file(&name, &error))
}

/// No stage is announced here: it would stand in the middle of the output, or of a pager's page.
pub fn to_stdout(bytes: &[u8]) -> Result<(), Failure> {
    let mut out = io::stdout().lock();
    match out.write_all(bytes).and_then(|()| out.flush()) {
        Ok(()) => Ok(()),
        Err(error) if error.kind() == ErrorKind::BrokenPipe => Err(Failure::silent()),
        Err(error) => Err(Failure::file("standard output", &error)),
    }
}

/// Whether both are names of one file.
pub fn is_same_file(one: &OsStr, other: &OsStr) -> bool {
    matches!((fs::canonicalize(one), fs::canonicalize(other)), (Ok(one), Ok(other)) if one == other)
}

/// A regular file is replaced whole or not at all, also where the path is a link to it. What is there and is no regular
/// file, a device or a named pipe, is written to.
fn to_file(path: &Path, bytes: &[u8]) -> io::Result<()> {
    match fs::metadata(path) {
        Err(error) if error.kind() == ErrorKind::NotFound => replace(path, None, bytes),
        Err(error) => Err(error),
        Ok(found) => {
            // Opened without being cut: what may not be written is not replaced either.
            let mut file = OpenOptions::new().write(true).open(path)?;
            if found.is_file() {
                replace(&fs::canonicalize(path)?, Some(found.permissions()), bytes)
            } else {
                file.write_all(bytes)
            }
        }
    }
}

/// Writes a file beside the path, and gives it the path's name only when it is whole.
fn replace(path: &Path, permissions: Option<Permissions>, bytes: &[u8]) -> io::Result<()> {
    let (part, file) = create_beside(path)?;
    let written = fill(file, permissions, bytes).and_then(|()| fs::rename(&part, path));
    if written.is_err() {
        let _ = fs::remove_file(&part);
    }
    written
}

/// A new file in the path's folder, under a name that nothing has.
fn create_beside(path: &Path) -> io::Result<(PathBuf, File)> {
    if path.file_name().is_none() {
        return Err(io::Error::new(ErrorKind::InvalidInput, "not the name of a file"));
    }
    let mut number = 0;
    loop {
        let part = path.with_file_name(format!(".hc-{}-{number}.part", process::id()));
        match OpenOptions::new().write(true).create_new(true).open(&part) {
            Ok(file) => return Ok((part, file)),
            Err(error) if error.kind() == ErrorKind::AlreadyExists && number < 1000 => number += 1,
            Err(error) => return Err(error),
        }
    }
}

/// The bytes are on the disk before the file takes its name, so that a power cut leaves the old file or the new one.
fn fill(mut file: File, permissions: Option<Permissions>, bytes: &[u8]) -> io::Result<()> {
    file.write_all(bytes)?;
    if let Some(permissions) = permissions {
        file.set_permissions(permissions)?;
    }
    file.sync_all()
}
