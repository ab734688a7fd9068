//! Reads the bytes of a dump from a file or from standard input.

use crate::error::Error;
use crate::memory::OutOfMemory;
use crate::progress;
use std::ffi::OsString;
use std::fs::File;
use std::io::{self, ErrorKind, Read};
use std::path::PathBuf;

/// The most bytes that the library reads as one dump.
pub const LIMIT: u64 = 1_073_741_824;

/// Where a dump comes from.
pub enum Source {
    Standard,
    File(PathBuf),
}

impl Source {
    /// Returns the source of an argument; `-` is standard input.
    pub fn named(argument: OsString) -> Source {
        if argument == "-" {
            Source::Standard
        } else {
            Source::File(argument.into())
        }
    }

    /// Returns the name for messages.
    pub fn name(&self) -> String {
        match self {
            Source::Standard => "standard input".into(),
            Source::File(path) => path.display().to_string(),
        }
    }
}

/// Reads all bytes of the source. Of a source over the limit, only one byte more than the limit is read.
pub fn load(source: &Source) -> Result<Vec<u8>, Error> {
    let name = source.name();
    let unreadable = |error: io::Error| Error::failed(&name, unreadable(&error));
    match source {
        Source::Standard => {
            let _line = progress::show("reading standard input", None);
            read_limited(io::stdin().lock(), 0, &name)
        }
        Source::File(path) => {
            let file = File::open(path).map_err(unreadable)?;
            let metadata = file.metadata().map_err(unreadable)?;
            if metadata.is_dir() {
                return Err(Error::failed(&name, "is a directory, not a dump"));
            }
            let _line = progress::show(&format!("reading {name}"), Some(metadata.len()));
            read_limited(file, metadata.len(), &name)
        }
    }
}

/// Reads to the end, or one byte past the limit. `size_hint` is the expected number of bytes.
fn read_limited(from: impl Read, size_hint: u64, name: &str) -> Result<Vec<u8>, Error> {
    let mut bytes = Vec::new();
    let most = LIMIT + 1;
    let first = size_hint.min(most) as usize;
    let no_memory = |bytes: usize| {
        let message = OutOfMemory::of::<u8>(bytes).message("to hold the dump");
        Error::failed(name, message)
    };
    bytes
        .try_reserve_exact(first)
        .map_err(|_| no_memory(first))?;
    match from.take(most).read_to_end(&mut bytes) {
        Ok(_) => Ok(bytes),
        Err(error) if error.kind() == ErrorKind::OutOfMemory => {
            Err(no_memory(bytes.capacity().saturating_mul(2)))
        }
        Err(error) => Err(Error::failed(name, unreadable(&error))),
    }
}

/// Returns the message for a file that cannot be read.
fn unreadable(error: &io::Error) -> String {
    match error.kind() {
        ErrorKind::NotFound => "no such file".into(),
        ErrorKind::PermissionDenied => "no permission to read it".into(),
        _ => format!("cannot be read: {error}"),
    }
}
