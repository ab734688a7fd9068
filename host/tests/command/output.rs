//! Tests of outputs that exist, that cannot be written, or whose reader has closed the pipe.

use crate::harness::{example, Folder, PHD, TEXT};
use crate::large::many_records;
use std::fs::{self, Permissions};
use std::io::Read;
use std::os::unix::fs::{symlink, FileTypeExt, PermissionsExt};
use std::process::Stdio;

#[test]
fn an_output_that_exists_is_replaced() {
    let folder = Folder::new("output-exists");
    folder.write("a", &example()).write("out", &[b'x'; 1000]);
    fs::set_permissions(folder.0.join("out"), Permissions::from_mode(0o600)).unwrap();
    folder.phd(&["text", "a", "-o", "out"]).exits(0).no_stderr();
    assert_eq!(folder.read("out"), TEXT.as_bytes());
    let mode = fs::metadata(folder.0.join("out")).unwrap().permissions();
    assert_eq!(mode.mode() & 0o777, 0o600);
    assert_eq!(folder.names(), ["a", "out"]);
}

#[test]
fn the_input_may_be_the_output() {
    let folder = Folder::new("output-itself");
    folder.write("a", &example()[..65]);
    folder.phd(&["copy", "a", "a"]).exits(1);
    assert_eq!(folder.read("a"), [&example()[..64], b"\x03"].concat());
    assert_eq!(folder.names(), ["a"]);
}

#[test]
fn a_link_stays_a_link() {
    let folder = Folder::new("output-link");
    folder.write("a", &example()).write("old", b"old");
    symlink("old", folder.0.join("link")).unwrap();
    folder.phd(&["copy", "a", "link"]).exits(0).no_stderr();
    assert_eq!(folder.read("old"), example());
    let link = fs::symlink_metadata(folder.0.join("link")).unwrap();
    assert!(link.is_symlink());
    assert_eq!(folder.names(), ["a", "link", "old"]);
}

#[test]
fn a_pipe_stays_a_pipe() {
    let folder = Folder::new("output-pipe");
    folder.write("a", &example());
    let line = "mkfifo pipe && { timeout 20 cat pipe >got & } && \"$PHD\" copy a pipe && wait";
    folder.shell(line).exits(0).no_stderr();
    assert_eq!(folder.read("got"), example());
    let pipe = fs::metadata(folder.0.join("pipe")).unwrap();
    assert!(pipe.file_type().is_fifo());
    assert_eq!(folder.names(), ["a", "got", "pipe"]);
}

#[test]
fn an_output_that_cannot_be_made() {
    let folder = Folder::new("output-cannot");
    folder.write("a", &example());
    fs::create_dir(folder.0.join("folder")).unwrap();
    for command in [
        &["copy", "a", "none/out"][..],
        &["text", "a", "-o", "none/out"],
        &["classes", "a", "-o", "none/out"],
    ] {
        let ran = folder.phd(command).exits(2).no_stdout();
        let message = "phd: none/out: cannot be written: its folder is not there\n";
        assert_eq!(ran.err, message);
    }
    for command in [&["copy", "a", "folder"][..], &["text", "a", "-o", "folder"]] {
        let ran = folder.phd(command).exits(2).no_stdout();
        let message = "phd: folder: is a directory, so it cannot be the output\n";
        assert_eq!(ran.err, message);
    }
    let ran = folder.phd(&["copy", "a", "a/out"]).exits(2);
    ran.stderr_has("phd: a/out: cannot be written");
    assert_eq!(folder.names(), ["a", "folder"]);
    assert_eq!(fs::read_dir(folder.0.join("folder")).unwrap().count(), 0);
}

#[test]
fn a_disk_that_is_full() {
    let folder = Folder::new("output-full");
    folder
        .write("a", &many_records(5000))
        .write("old", b"as it was");
    // Files are limited to a few blocks, and exceeding that is an error instead of a signal.
    for out in ["new", "old"] {
        let line = format!("trap '' XFSZ; ulimit -f 2; exec \"$PHD\" copy a {out}");
        let ran = folder.shell(&line).exits(2).no_stdout();
        ran.stderr_has(&format!("phd: {out}: cannot be written: "));
    }
    assert_eq!(folder.read("old"), b"as it was");
    assert_eq!(folder.names(), ["a", "old"]);
    // The last output is so short that it may stay in a buffer until the end.
    folder.write("b", &example());
    for command in [
        "info a",
        "classes a",
        "text a",
        "copy a -",
        "--help",
        "copy b -",
    ] {
        let ran = folder.shell(&format!("\"$PHD\" {command} >/dev/full"));
        let ran = ran.exits(2);
        ran.stderr_has("phd: standard output: cannot be written: No space left");
    }
}

#[test]
fn a_reader_that_goes_away() {
    let folder = Folder::new("output-closed");
    folder.write("a", &many_records(100_000));
    for arguments in [&["text", "a"][..], &["copy", "a", "-"]] {
        let mut command = folder.command(PHD);
        command.args(arguments).stderr(Stdio::piped());
        let mut child = command.stdout(Stdio::piped()).spawn().unwrap();
        let mut start = [0; 10];
        child
            .stdout
            .as_mut()
            .unwrap()
            .read_exact(&mut start)
            .unwrap();
        drop(child.stdout.take());
        let ended = child.wait_with_output().unwrap();
        assert_eq!(String::from_utf8(ended.stderr).unwrap(), "");
        assert_eq!(ended.status.code(), Some(0));
    }
}

#[test]
fn no_reader_from_the_start() {
    let folder = Folder::new("output-no-reader");
    folder.write("a", &example());
    for arguments in ["info a a", "classes a", "text a", "--help"] {
        // The left side waits until the right side has ended.
        let line = format!("{{ sleep 0.3; \"$PHD\" {arguments}; echo $? >status; }} | true");
        folder.shell(&line).no_stderr();
        assert_eq!(folder.read("status"), b"0\n");
    }
}
