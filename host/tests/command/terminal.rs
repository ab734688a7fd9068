//! Tests of what is shown while something takes long, with a terminal as standard error.

use crate::harness::{example, Folder, Ran, PHD, TEXT};
use crate::large::{class, long_named};
use std::ffi::{c_char, c_int, CStr};
use std::fs::File;
use std::io::Read;
use std::os::fd::{AsRawFd, RawFd};
use std::process::{Child, Stdio};

extern "C" {
    fn unlockpt(terminal: RawFd) -> c_int;
    fn ptsname_r(terminal: RawFd, name: *mut c_char, size: usize) -> c_int;
}

/// A terminal: the side from which the test reads what is shown, and the side on which a program shows it.
struct Terminal {
    shown: File,
    screen: File,
}

impl Terminal {
    fn new() -> Terminal {
        let open = |path: &str| File::options().read(true).write(true).open(path).unwrap();
        let shown = open("/dev/ptmx");
        let mut name: [c_char; 64] = [0; 64];
        // SAFETY: the calls are passed an open file, and the second one a buffer with its size, in which it stores a C string.
        let name = unsafe {
            assert_eq!(unlockpt(shown.as_raw_fd()), 0);
            assert_eq!(
                ptsname_r(shown.as_raw_fd(), name.as_mut_ptr(), name.len()),
                0
            );
            CStr::from_ptr(name.as_ptr())
        };
        let screen = open(name.to_str().unwrap());
        Terminal { shown, screen }
    }

    /// Returns the side for a program's output.
    fn screen(&self) -> Stdio {
        self.screen.try_clone().unwrap().into()
    }

    /// Returns all that is shown until every program has closed the terminal.
    fn read(self) -> String {
        let Terminal { mut shown, screen } = self;
        drop(screen);
        let (mut all, mut part) = (Vec::new(), [0; 4096]);
        // When the last program has closed a terminal, reading it is an error.
        while let Ok(size @ 1..) = shown.read(&mut part) {
            all.extend(&part[..size]);
        }
        String::from_utf8(all).unwrap()
    }
}

/// Starts the program with standard error on a terminal.
fn start(folder: &Folder, arguments: &[&str], stdout: Stdio, terminal: &Terminal) -> Child {
    let mut command = folder.command(PHD);
    command.args(arguments).stdout(stdout);
    command.stderr(terminal.screen()).spawn().unwrap()
}

/// Runs the program with standard error on a terminal, checks that it ends with status 0, and returns what is shown.
fn run(folder: &Folder, arguments: &[&str]) -> String {
    let terminal = Terminal::new();
    let child = start(folder, arguments, Stdio::null(), &terminal);
    let shown = terminal.read();
    Ran::of(child.wait_with_output().unwrap()).exits(0);
    shown
}

/// Returns the line that is updated in place with these percentages of a file of 18 MB, and erased.
fn percentages(name: &str, percent: &[u64]) -> String {
    let line = |percent| format!("\rwriting {name} (18 MB): {percent} %");
    let lines: String = percent.iter().map(line).collect();
    lines + "\r\x1b[K"
}

/// What is shown of the text of `long_named(300)`, up to writing it.
const TEXT_MADE: &str = "phd: a: the text will have 18,129,815 bytes (18 MB)\r\n\
                         making the text of a (18 MB) ..\r\x1b[K";

#[test]
fn size_and_percentage_of_a_text() {
    let folder = Folder::new("terminal-text");
    folder.write("a", &long_named(300));
    let all = [0, 22, 44, 66, 88, 100];
    let shown = run(&folder, &["text", "a", "-o", "out"]);
    assert_eq!(shown, TEXT_MADE.to_string() + &percentages("out", &all));
    assert_eq!(folder.read("out").len(), 18_129_815);
    let shown = run(&folder, &["text", "a"]);
    let line = percentages("standard output", &all);
    assert_eq!(shown, TEXT_MADE.to_string() + &line);
}

#[test]
fn size_and_percentage_of_a_copy() {
    let folder = Folder::new("terminal-copy");
    let classes = class(60_000).repeat(301);
    folder.write("a", &[&example()[..73], &classes, b"\x03"].concat());
    let shown = run(&folder, &["copy", "a", "b"]);
    let read = ["reading a", "reading the records of a"];
    let read = read
        .map(|doing| format!("{doing} (18 MB) ..\r\x1b[K"))
        .concat();
    let made = "phd: a: the dump will have 18,065,191 bytes (18 MB)\r\n\
                making the dump of a (18 MB) ..\r\x1b[K";
    let written = percentages("b", &[0, 22, 44, 66, 88, 100]);
    assert_eq!(shown, read + made + &written);
    assert!(folder.read("b") == folder.read("a"));
}

#[test]
fn size_of_a_text_that_memory_cannot_hold() {
    let folder = Folder::new("terminal-memory");
    folder.write("a", &long_named(20_000));
    let terminal = Terminal::new();
    let mut shell = folder.command("sh");
    shell.args(["-c", "ulimit -v 400000; \"$PHD\" text a -o out"]);
    shell.env("PHD", PHD).stderr(terminal.screen());
    let mut child = shell.spawn().unwrap();
    drop(shell);
    let expected = "phd: a: the text will have 1,200,760,219 bytes (1.2 GB)\r\n\
                    making the text of a (1,200 MB) ..\r\x1b[K\
                    phd: a: not enough memory for the output: 1,200,760,219 bytes were asked for\r\n";
    assert_eq!(terminal.read(), expected);
    assert_eq!(child.wait().unwrap().code(), Some(2));
    assert_eq!(folder.names(), ["a"]);
}

#[test]
fn no_more_percent_than_are_written() {
    let folder = Folder::new("terminal-partly");
    folder.write("a", &long_named(300));
    let terminal = Terminal::new();
    let mut child = start(&folder, &["text", "a"], Stdio::piped(), &terminal);
    // Whoever reads the output takes so many bytes and closes it; a pipe holds far fewer than a part that is written.
    let mut start = vec![0; 9_000_000];
    let mut stdout = child.stdout.take().unwrap();
    stdout.read_exact(&mut start).unwrap();
    drop(stdout);
    let line = percentages("standard output", &[0, 22, 44]);
    assert_eq!(terminal.read(), TEXT_MADE.to_string() + &line);
    Ran::of(child.wait_with_output().unwrap()).exits(0);
}

#[test]
fn no_percentage_of_an_output_on_the_terminal() {
    let folder = Folder::new("terminal-both");
    folder.write("a", &long_named(300));
    let terminal = Terminal::new();
    let child = start(&folder, &["text", "a"], terminal.screen(), &terminal);
    let shown = terminal.read();
    Ran::of(child.wait_with_output().unwrap()).exits(0);
    assert!(shown.starts_with(&format!("{TEXT_MADE}// Version: Test\r\n")));
    assert!(shown.ends_with(" : 302,1(0)\r\n"));
}

#[test]
fn nothing_about_a_short_output() {
    let folder = Folder::new("terminal-short");
    folder.write("a", &example());
    assert_eq!(run(&folder, &["text", "a", "-o", "out"]), "");
    assert_eq!(folder.read("out"), TEXT.as_bytes());
    assert_eq!(run(&folder, &["copy", "a", "out"]), "");
    assert_eq!(folder.read("out"), example());
}
