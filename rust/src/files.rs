//! Files in and out, and what can fail there.

use std::ffi::OsStr;
use std::fs::{self, File};
use std::io::{self, stdin, stdout, BufWriter, Read, StdoutLock, Write};

use sif::trace::TraceError;
use sif::Refusal;

/// Why a command ends with code 2.
pub enum Failure {
    /// Wrong usage, with what is wrong.
    Usage(String),
    /// Anything else, in words.
    Message(String),
    /// Nobody reads the output any more: nothing is said.
    ClosedPipe,
}

impl From<io::Error> for Failure {
    fn from(error: io::Error) -> Failure {
        match error.kind() {
            io::ErrorKind::BrokenPipe => Failure::ClosedPipe,
            _ => Failure::Message(format!("standard output: {error}")),
        }
    }
}

impl From<Refusal> for Failure {
    fn from(refusal: Refusal) -> Failure {
        Failure::Message(refusal.to_string())
    }
}

impl From<TraceError> for Failure {
    fn from(error: TraceError) -> Failure {
        match error {
            TraceError::Refused(refusal) => refusal.into(),
            TraceError::Io(error) => error.into(),
        }
    }
}

/// The most bytes that are read of a tree file. No accepted file is longer than 12,867, and a longer
/// one is refused with the same number as its first 16,384 bytes (docs/DECISIONS.md).
const TREE_LONGEST: u64 = 1 << 20;
/// The most bytes of a text; what `sif show` prints is shorter. The words and signs of a text take up
/// to 150 times as much memory.
const TEXT_LONGEST: u64 = 1 << 20;

/// The bytes of a tree file.
pub fn read_tree(path: &OsStr) -> Result<Vec<u8>, Failure> {
    read(path, TREE_LONGEST)
}

/// The bytes of a text.
pub fn read_text(path: &OsStr) -> Result<Vec<u8>, Failure> {
    let bytes = read(path, TEXT_LONGEST + 1)?;
    if bytes.len() as u64 > TEXT_LONGEST {
        return Err(Failure::Message(format!("{}: too long for a script", name(path))));
    }
    Ok(bytes)
}

/// A file's name in messages, which have one line.
pub fn name(path: &OsStr) -> String {
    if path == "-" {
        "standard input".into()
    } else {
        path.to_string_lossy().replace(char::is_control, "?")
    }
}

/// Writes bytes to a file, or to standard output where none is named, or `-`.
pub fn write(path: Option<&OsStr>, bytes: &[u8]) -> Result<(), Failure> {
    match path.filter(|path| *path != "-") {
        Some(path) => fs::write(path, bytes)
            .map_err(|error| Failure::Message(format!("{}: {error}", name(path)))),
        None => {
            let mut out = output();
            out.write_all(bytes)?;
            Ok(out.flush()?)
        }
    }
}

/// Standard output, written in large pieces.
pub fn output() -> BufWriter<StdoutLock<'static>> {
    BufWriter::new(stdout().lock())
}

fn read(path: &OsStr, longest: u64) -> Result<Vec<u8>, Failure> {
    let mut bytes = Vec::new();
    let done = if path == "-" {
        stdin().lock().take(longest).read_to_end(&mut bytes)
    } else {
        File::open(path).and_then(|file| file.take(longest).read_to_end(&mut bytes))
    };
    match done {
        Ok(_) => Ok(bytes),
        Err(error) => Err(Failure::Message(format!("{}: {error}", name(path)))),
    }
}
