//! Writes results to standard output, or to a file, which is written whole or not at all.

use crate::error::Error;
use crate::progress::Percentage;
use std::ffi::OsString;
use std::fs::{self, File, OpenOptions, Permissions};
use std::io::{self, ErrorKind, IsTerminal, Write};
use std::path::{Path, PathBuf};

/// A result is written in parts of this many bytes, and its progress is shown after each of them.
const PART: usize = 4_000_000;

/// Where a result goes.
pub enum Target {
    Standard,
    File(PathBuf),
}

/// Whether a result was written completely.
#[derive(PartialEq)]
pub enum Sent {
    Whole,
    /// The reader of a pipe has closed it, as `head` does. That is no error.
    NoReader,
}

impl Target {
    /// Returns the target of an argument; `-` is standard output.
    pub fn named(argument: OsString) -> Target {
        if argument == "-" {
            Target::Standard
        } else {
            Target::File(argument.into())
        }
    }

    /// Returns an error if it is already clear that the target cannot be written.
    pub fn check(&self) -> Result<(), Error> {
        let Target::File(path) = self else {
            return Ok(());
        };
        if path.is_dir() {
            return Err(path_error(
                path,
                "is a directory, so it cannot be the output",
            ));
        }
        if !folder(path).is_dir() {
            return Err(path_error(
                path,
                "cannot be written: its folder is not there",
            ));
        }
        Ok(())
    }
}

/// Writes text to standard output.
pub fn print(text: &str) -> Result<Sent, Error> {
    send(&Target::Standard, text.as_bytes())
}

/// Writes bytes to the target.
pub fn send(target: &Target, bytes: &[u8]) -> Result<Sent, Error> {
    let Target::File(path) = target else {
        let name = "standard output";
        return outcome(write(&mut io::stdout().lock(), bytes, name).map(drop), name);
    };
    let name = path.display().to_string();
    let written = match fs::metadata(path) {
        // A device or a pipe is written directly: only a file can be replaced.
        Ok(metadata) if !metadata.is_file() => {
            File::create(path).and_then(|mut file| write(&mut file, bytes, &name).map(drop))
        }
        metadata => {
            let permissions = metadata.ok().map(|it| it.permissions());
            replace(path, permissions, bytes, &name)
        }
    };
    outcome(written, &name)
}

/// Writes bytes part by part. Shows how many percent are written, unless they go to a terminal, and returns that line.
fn write(to: &mut (impl Write + IsTerminal), bytes: &[u8], name: &str) -> io::Result<Percentage> {
    let visible = !to.is_terminal();
    let mut line = Percentage::show(&format!("writing {name}"), bytes.len() as u64, visible);
    for part in bytes.chunks(PART) {
        to.write_all(part)?;
        // What standard output still holds in its buffer is not written.
        to.flush()?;
        line.add(part.len() as u64);
    }
    Ok(line)
}

/// Returns how a write ended. A closed pipe is no error.
fn outcome(written: io::Result<()>, name: &str) -> Result<Sent, Error> {
    match written {
        Ok(()) => Ok(Sent::Whole),
        Err(error) if error.kind() == ErrorKind::BrokenPipe => Ok(Sent::NoReader),
        Err(error) => Err(Error::failed(name, format!("cannot be written: {error}"))),
    }
}

/// Returns the error for an output file.
fn path_error(path: &Path, message: &str) -> Error {
    Error::failed(path.display().to_string(), message)
}

/// Returns the folder that a file is in.
fn folder(path: &Path) -> &Path {
    match path.parent() {
        Some(folder) if !folder.as_os_str().is_empty() => folder,
        _ => Path::new("."),
    }
}

/// Writes a temporary file in the same folder and renames it to `path`, shown as `name`. It gets the permissions of the file that
/// it replaces.
fn replace(
    path: &Path,
    permissions: Option<Permissions>,
    bytes: &[u8],
    name: &str,
) -> io::Result<()> {
    // If the path is a link, the file that it leads to is replaced.
    let path = fs::canonicalize(path).unwrap_or_else(|_| path.into());
    let (temporary, file) = create_temporary(&path)?;
    let done = fill(file, permissions, bytes, name).and_then(|()| fs::rename(&temporary, &path));
    if done.is_err() {
        let _ = fs::remove_file(&temporary);
    }
    done
}

/// Writes a new file and makes sure that it is on the disk.
fn fill(
    mut file: File,
    permissions: Option<Permissions>,
    bytes: &[u8],
    name: &str,
) -> io::Result<()> {
    if let Some(permissions) = permissions {
        file.set_permissions(permissions)?;
    }
    let _line = write(&mut file, bytes, name)?;
    // Some file systems report only here that they are full.
    file.sync_all()
}

/// Creates a temporary file in the same folder.
fn create_temporary(path: &Path) -> io::Result<(PathBuf, File)> {
    let mut number = 0;
    loop {
        let name = format!(".phd-{}-{number}.tmp", std::process::id());
        let temporary = folder(path).join(name);
        match OpenOptions::new()
            .write(true)
            .create_new(true)
            .open(&temporary)
        {
            Ok(file) => return Ok((temporary, file)),
            Err(error) if error.kind() == ErrorKind::AlreadyExists => number += 1,
            Err(error) => return Err(error),
        }
    }
}
