//! Tests of options, wrong command lines, and files that cannot be read.

use crate::harness::{example, Folder, PHD, TEXT};

#[test]
fn help_and_version() {
    let folder = Folder::new("usage-help");
    let help = folder.phd(&["--help"]).exits(0).no_stderr();
    for arguments in [&["-h"][..], &["help"], &["info", "--help"], &["copy", "-h"]] {
        assert_eq!(folder.phd(arguments).exits(0).no_stderr().out(), help.out());
    }
    help.stdout_has("phd classes FILE [-o OUT]")
        .stdout_has("--sort bytes|instances|name")
        .stdout_has("phd info FILE..")
        .stdout_has("phd info --rows FILE..")
        .stdout_has("phd text FILE [-o OUT]")
        .stdout_has("phd copy FILE OUT")
        .stdout_has("Exit status: 0 done; 1 ");
    let version = folder.phd(&["--version"]).exits(0).no_stderr();
    assert_eq!(
        version.out(),
        concat!("phd ", env!("CARGO_PKG_VERSION"), "\n")
    );
}

/// Command lines that are wrong, and a part of the message.
const WRONG: [(&[&str], &str); 29] = [
    (&[], "no command is given"),
    (&["--"], "no command is given"),
    (&["look", "a"], "unknown command 'look'"),
    (&["info", "-x", "a"], "unknown option '-x'"),
    (&["--all", "info", "a"], "unknown option '--all'"),
    (&["info"], "info wants one FILE or more"),
    (&["info", "-", "a", "-"], "can be read only once"),
    (&["text"], "text wants one FILE"),
    (&["text", "a", "b"], "text wants one FILE"),
    (&["text", "a", "-o"], "-o wants the output's name after it"),
    (&["text", "a", "-o", "b", "-o", "c"], "-o is given twice"),
    (&["copy", "a"], "copy wants one FILE and one OUT"),
    (
        &["copy", "a", "-o", "b"],
        "-o belongs to 'classes' and 'text' alone",
    ),
    (&["info", "--rows"], "info wants one FILE or more"),
    (&["text", "--rows", "a"], "--rows belongs to 'info' alone"),
    (
        &["copy", "a", "b", "--rows"],
        "--rows belongs to 'info' alone",
    ),
    (&["classes"], "classes wants one FILE"),
    (&["classes", "a", "a"], "classes wants one FILE"),
    (&["classes", "a", "--top"], "--top wants a number from 1 on"),
    (&["classes", "a", "--top", "0"], "--top wants a number from"),
    (
        &["classes", "a", "--top", "-1"],
        "--top wants a number from",
    ),
    (
        &["classes", "a", "--top", "1", "--top", "2"],
        "--top is given twice",
    ),
    (
        &["classes", "a", "--sort"],
        "--sort wants bytes, instances or name after it",
    ),
    (
        &["classes", "a", "--sort", "size"],
        "--sort wants bytes, instances or name after it",
    ),
    (
        &["classes", "a", "--csv", "--json"],
        "--csv and --json are given",
    ),
    (
        &["classes", "--rows", "a"],
        "--rows belongs to 'info' alone",
    ),
    (&["info", "--top", "3", "a"], "--top belongs to 'classes'"),
    (
        &["text", "--json", "a"],
        "--json belongs to 'classes' alone",
    ),
    (&["copy", "--raw", "a", "b"], "--raw belongs to 'classes'"),
];

#[test]
fn wrong_command_lines() {
    let folder = Folder::new("usage-wrong");
    folder.write("a", &example());
    for (arguments, message) in WRONG {
        let ran = folder
            .phd(arguments)
            .exits(2)
            .no_stdout()
            .stderr_has(message);
        assert!(ran.err.starts_with("phd: ") && ran.err.contains("phd --help"));
    }
    assert_eq!(folder.names(), ["a"]);
}

#[test]
fn names_after_two_dashes() {
    let folder = Folder::new("usage-dashes");
    folder.write("-x", &example());
    let ran = folder.phd(&["info", "--", "-x"]).exits(0).no_stderr();
    ran.stdout_has("-x: whole (reply 0)\n");
    folder.phd(&["copy", "--", "-x", "-y"]).exits(0).no_stderr();
    assert_eq!(folder.read("-y"), example());
}

#[test]
fn standard_input_and_output() {
    let folder = Folder::new("usage-standard");
    let ran = folder
        .phd_with_input(&["info", "-"], &example())
        .exits(0)
        .no_stderr();
    ran.stdout_has("standard input: whole (reply 0)\n")
        .stdout_has("file size           74 bytes\n");
    let ran = folder
        .phd_with_input(&["text", "-"], &example())
        .exits(0)
        .no_stderr();
    assert_eq!(ran.out(), TEXT);
    let ran = folder
        .phd_with_input(&["text", "-", "-o", "-"], &example())
        .exits(0);
    assert_eq!(ran.no_stderr().out(), TEXT);
    let ran = folder
        .phd_with_input(&["copy", "-", "-"], &example())
        .exits(0)
        .no_stderr();
    assert_eq!(ran.out, example());
    let ran = folder
        .phd_with_input(&["copy", "-", "-"], &example()[..64])
        .exits(1);
    let ran = ran.stderr_has("phd: standard input: cut off (reply 1)");
    assert_eq!(ran.out, [&example()[..64], b"\x03"].concat());
    assert_eq!(folder.names(), [""; 0]);
}

#[test]
fn files_that_cannot_be_read() {
    let folder = Folder::new("usage-unreadable");
    std::fs::create_dir(folder.0.join("folder")).unwrap();
    for arguments in [
        &["info", "none"][..],
        &["classes", "none"],
        &["text", "none"],
        &["copy", "none", "out"],
    ] {
        let ran = folder.phd(arguments).exits(2).no_stdout();
        assert_eq!(ran.err, "phd: none: no such file\n");
    }
    for arguments in [
        &["info", "folder"][..],
        &["classes", "folder"],
        &["text", "folder"],
        &["copy", "folder", "out"],
    ] {
        let ran = folder.phd(arguments).exits(2).no_stdout();
        assert_eq!(ran.err, "phd: folder: is a directory, not a dump\n");
    }
    assert_eq!(folder.names(), ["folder"]);
}

#[test]
fn a_name_that_is_no_text() {
    use std::os::unix::ffi::OsStrExt;
    let folder = Folder::new("usage-name");
    let name = std::ffi::OsStr::from_bytes(b"a\xFF.phd");
    std::fs::write(folder.0.join(name), example()).unwrap();
    let status = folder.command(PHD).arg("info").arg(name).output().unwrap();
    assert_eq!(status.status.code(), Some(0));
}
