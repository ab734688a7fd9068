//! Shows on standard error what takes long, if that is a terminal.

use crate::messages::grouped;
use std::io::{self, IsTerminal, Write};

/// From this many bytes on something is shown. Work on fewer is done before anyone could read it.
pub const LONG: u64 = 16_000_000;

/// A line that is erased on drop.
pub struct Line {
    shown: bool,
}

/// Returns whether work on so many bytes, or on an unknown number of them, is shown.
pub fn is_shown(bytes: Option<u64>) -> bool {
    bytes.is_none_or(|bytes| bytes >= LONG) && io::stderr().is_terminal()
}

/// Shows what is being done with `bytes` bytes, or with an unknown number of them.
pub fn show(doing: &str, bytes: Option<u64>) -> Line {
    let shown = is_shown(bytes);
    if shown {
        let size = bytes.map_or(String::new(), |bytes| format!(" ({})", megabytes(bytes)));
        print(&format!("{doing}{size} .."));
    }
    Line { shown }
}

impl Drop for Line {
    fn drop(&mut self) {
        if self.shown {
            print("\r\x1b[K");
        }
    }
}

/// A line with how many percent of an output are written, erased on drop.
pub struct Percentage {
    line: Line,
    doing: String,
    total: u64,
    written: u64,
}

impl Percentage {
    /// Shows 0 percent of `total` bytes. Nothing is ever shown if `visible` is false.
    pub fn show(doing: &str, total: u64, visible: bool) -> Percentage {
        let percentage = Percentage {
            line: Line {
                shown: visible && is_shown(Some(total)),
            },
            doing: format!("{doing} ({})", megabytes(total)),
            total,
            written: 0,
        };
        percentage.print();
        percentage
    }

    /// Counts bytes that were written, and shows the percentage if it is another than before.
    pub fn add(&mut self, bytes: u64) {
        let before = percent(self.written, self.total);
        self.written += bytes;
        if percent(self.written, self.total) != before {
            self.print();
        }
    }

    fn print(&self) {
        if self.line.shown {
            let percent = percent(self.written, self.total);
            print(&format!("\r{}: {percent} %", self.doing));
        }
    }
}

/// Returns the whole percent of `total` bytes that `written` bytes are, never more than they are.
fn percent(written: u64, total: u64) -> u64 {
    (u128::from(written) * 100 / u128::from(total.max(1))) as u64
}

/// Formats a number of bytes in millions of them.
fn megabytes(bytes: u64) -> String {
    format!("{} MB", grouped(bytes / 1_000_000))
}

/// Prints on standard error. A failure to print is ignored, since it could not be reported either.
fn print(text: &str) {
    let mut screen = io::stderr();
    let _ = write!(screen, "{text}");
    let _ = screen.flush();
}
