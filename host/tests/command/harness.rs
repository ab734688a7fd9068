//! What the tests share: the example dump, a folder to run the command in, and the result of a run.

use std::ffi::OsStr;
use std::fs;
use std::io::Write;
use std::path::{Path, PathBuf};
use std::process::{Command, Output, Stdio};

pub const PHD: &str = env!("CARGO_BIN_EXE_phd");
pub const HEADER: &[u8] =
    b"\x00\x12portable heap dump\0\0\0\x06\0\0\0\x04\x01\x04\0\x04Test\x02\x02";
pub const RECORDS: [&[u8]; 4] = [
    b"\x06\x40\x04\0\0\0\0\x10\0\0\0\0\0\x01A\0\0\0\0",
    b"\x48\x04\0\0\x10\0\x04",
    b"\x80\x04",
    b"\x24\x04\x03\0\0\0\x06",
];
/// The widths of the example's fields, in file order: the header, each record, and the end tag.
pub const FIELDS: [&[usize]; 6] = [
    &[2, 18, 4, 4, 1, 1, 2, 4, 1, 1],
    &[1, 1, 2, 4, 4, 2, 1, 4],
    &[1, 1, 4, 1],
    &[1, 1],
    &[1, 1, 1, 4],
    &[1],
];
/// The offsets of the records and of the end tag of the example.
pub const STARTS: [usize; 5] = [38, 57, 64, 66, 73];
pub const TEXT: &str = "\
// Version: Test
0x00001000 [0] CLS A
0x00000000
0x00001010 [16] OBJ A
0x00001000 0x00001020
0x00001020 [16] OBJ A
0x00001000
0x00001030 [24] OBJ [C
0x00000000
// Breakdown - Classes: 1, Objects: 2, ObjectArrays: 0, PrimitiveArrays: 1
// EOF:  Total 'Objects',Refs(null) : 4,1(0)
";

/// Returns the example dump, 74 bytes.
pub fn example() -> Vec<u8> {
    [HEADER, &RECORDS.concat(), b"\x03"].concat()
}

/// Returns the example with other bytes at a place.
pub fn edited(place: usize, bytes: &[u8]) -> Vec<u8> {
    let mut dump = example();
    dump[place..place + bytes.len()].copy_from_slice(bytes);
    dump
}

/// A new folder for a test, removed at its end.
pub struct Folder(pub PathBuf);

impl Folder {
    pub fn new(name: &str) -> Folder {
        let path = Path::new(env!("CARGO_TARGET_TMPDIR")).join(name);
        let _ = fs::remove_dir_all(&path);
        fs::create_dir_all(&path).unwrap();
        Folder(path)
    }

    pub fn write(&self, name: &str, bytes: &[u8]) -> &Folder {
        fs::write(self.0.join(name), bytes).unwrap();
        self
    }

    pub fn read(&self, name: &str) -> Vec<u8> {
        fs::read(self.0.join(name)).unwrap()
    }

    /// Returns the names of the files in the folder, including hidden ones.
    pub fn names(&self) -> Vec<String> {
        let entries = fs::read_dir(&self.0).unwrap();
        let mut names: Vec<String> = entries
            .map(|entry| entry.unwrap().file_name().into_string().unwrap())
            .collect();
        names.sort();
        names
    }

    /// Returns a command that runs in the folder.
    pub fn command(&self, program: impl AsRef<OsStr>) -> Command {
        let mut command = Command::new(program);
        command.current_dir(&self.0).stdin(Stdio::null());
        command
    }

    /// Runs the program with these arguments.
    pub fn phd(&self, arguments: &[&str]) -> Ran {
        Ran::of(self.command(PHD).args(arguments).output().unwrap())
    }

    /// Runs a shell command, in which $PHD is the program.
    pub fn shell(&self, line: &str) -> Ran {
        let mut shell = self.command("sh");
        Ran::of(shell.args(["-c", line]).env("PHD", PHD).output().unwrap())
    }

    /// Runs the program with bytes on standard input.
    pub fn phd_with_input(&self, arguments: &[&str], bytes: &[u8]) -> Ran {
        let mut command = self.command(PHD);
        command.args(arguments).stdin(Stdio::piped());
        let mut child = command
            .stdout(Stdio::piped())
            .stderr(Stdio::piped())
            .spawn()
            .unwrap();
        child.stdin.take().unwrap().write_all(bytes).unwrap();
        Ran::of(child.wait_with_output().unwrap())
    }
}

impl Drop for Folder {
    fn drop(&mut self) {
        let _ = fs::remove_dir_all(&self.0);
    }
}

/// The result of a run.
#[derive(Debug)]
pub struct Ran {
    pub status: Option<i32>,
    pub out: Vec<u8>,
    pub err: String,
}

impl Ran {
    pub fn of(output: Output) -> Ran {
        Ran {
            status: output.status.code(),
            out: output.stdout,
            err: String::from_utf8(output.stderr).unwrap(),
        }
    }

    /// Returns standard output as text.
    pub fn out(&self) -> &str {
        std::str::from_utf8(&self.out).unwrap()
    }

    /// Checks the exit status.
    pub fn exits(self, status: i32) -> Ran {
        assert_eq!(self.status, Some(status), "{self:?}");
        self
    }

    /// Checks that standard error is empty.
    pub fn no_stderr(self) -> Ran {
        assert_eq!(self.err, "");
        self
    }

    /// Checks that standard output contains a text.
    pub fn stdout_has(self, text: &str) -> Ran {
        assert!(self.out().contains(text), "{text:?} in\n{}", self.out());
        self
    }

    /// Checks that standard output is empty.
    pub fn no_stdout(self) -> Ran {
        assert_eq!(self.out(), "");
        self
    }

    /// Checks that standard error contains a text.
    pub fn stderr_has(self, text: &str) -> Ran {
        assert!(self.err.contains(text), "{text:?} in\n{}", self.err);
        self
    }
}
