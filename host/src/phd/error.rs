//! The exit status, errors, and messages on standard error.

use std::io::{self, Write};

/// The exit status. A later one is worse.
#[derive(Clone, Copy, PartialEq, Eq, PartialOrd, Ord, Debug)]
pub enum Status {
    /// Everything was done, and the dump is whole.
    Done = 0,
    /// The dump is cut off or refused.
    Refused = 1,
    /// The command line is wrong, or a file cannot be read or written.
    Failed = 2,
}

/// An error about a file.
pub struct Error {
    pub status: Status,
    pub file: String,
    pub message: String,
}

impl Error {
    /// Returns the error for a file that cannot be read or written.
    pub fn failed(file: impl Into<String>, message: impl Into<String>) -> Error {
        Error {
            status: Status::Failed,
            file: file.into(),
            message: message.into(),
        }
    }

    /// Returns the error for a dump of which nothing can be converted.
    pub fn refused(file: impl Into<String>, message: impl Into<String>) -> Error {
        Error {
            status: Status::Refused,
            file: file.into(),
            message: message.into(),
        }
    }

    /// Prints the error and returns the exit status.
    pub fn report(self) -> Status {
        print_about(&self.file, &self.message);
        self.status
    }
}

/// Prints a line on standard error. A failure to print is ignored, since it could not be reported either.
pub fn print_line(message: &str) {
    let _ = writeln!(io::stderr(), "phd: {message}");
}

/// Prints a line about a file on standard error.
pub fn print_about(file: &str, message: &str) {
    print_line(&format!("{file}: {message}"));
}
