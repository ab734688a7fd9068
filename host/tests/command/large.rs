//! Tests of dumps that need larger tables than the first guess, and of dumps that need more memory or stack than there is.

use crate::builder::Builder;
use crate::harness::{example, Folder, Ran, PHD, TEXT};
use std::fs::File;
use std::io::Write;
use std::process::Stdio;

/// Returns the example up to its second record, followed by `count` objects of two bytes each.
pub fn many_records(count: usize) -> Vec<u8> {
    let mut dump = example()[..64].to_vec();
    dump.extend(b"\x80\x01".repeat(count));
    dump.push(3);
    dump
}

#[test]
fn many_short_records() {
    let folder = Folder::new("large-records");
    let dump = many_records(200_000);
    folder.write("a", &dump);
    let ran = folder.phd(&["info", "a"]).exits(0).no_stderr();
    ran.stdout_has("a: whole (reply 0)\n")
        .stdout_has("  objects                  200,001               1               0\n")
        .stdout_has("  all                      200,002               1               0\n")
        .stdout_has("file size           400,065 bytes\n");
    folder.phd(&["copy", "a", "b"]).exits(0).no_stderr();
    assert!(folder.read("b") == dump);
    let ran = folder.phd(&["text", "a"]).exits(0).no_stderr();
    assert_eq!(ran.out().lines().count(), 3 + 2 * 200_002);
    let last = "\n// EOF:  Total 'Objects',Refs(null) : 200002,1(0)\n";
    assert!(ran.out().ends_with(last));
}

#[test]
fn many_references() {
    let folder = Folder::new("large-references");
    let mut dump = example()[..64].to_vec();
    // An object array with 300,000 references of one byte each, all to itself, then objects with three references.
    dump.extend(b"\x08\0\x04\0\0\x10\0\0\x04\x93\xE0");
    dump.extend(vec![0; 300_000]);
    dump.extend(b"\0\0\0\x01\0\x04\x93\xE0");
    dump.extend(b"\x98\x01\0\x01\x02".repeat(10_000));
    dump.push(3);
    folder.write("a", &dump);
    let ran = folder.phd(&["info", "a"]).exits(0).no_stderr();
    ran.stdout_has("  objects                   10,001          30,001               0\n")
        .stdout_has("  object arrays                  1         300,000               0\n");
    folder.phd(&["copy", "a", "b"]).exits(0).no_stderr();
    assert!(folder.read("b") == dump);
    let ran = folder.phd(&["text", "a"]).exits(0).no_stderr();
    assert!(ran.out().ends_with(" : 10003,330001(0)\n"));
}

#[test]
fn a_cut_far_inside() {
    let folder = Folder::new("large-cut");
    let dump = many_records(200_000);
    folder.write("a", &dump[..300_001]);
    let ran = folder.phd(&["info", "a"]).exits(1).no_stderr();
    ran.stdout_has("begins at byte 300,000 (0x493E0), after 1 byte of it.")
        .stdout_has("The 149,970 records before that place");
    folder.phd(&["copy", "a", "b"]).exits(1);
    assert!(folder.read("b") == [&dump[..300_000], b"\x03"].concat());
}

/// Returns the class name in `long_named`.
fn long_name() -> String {
    "N".repeat(60_000)
}

/// Returns the example's class with a long name, its first object, and `count` objects of two bytes each.
pub fn long_named(count: usize) -> Vec<u8> {
    let mut dump = example()[..50].to_vec();
    dump.extend(60_000u16.to_be_bytes());
    dump.extend(long_name().as_bytes());
    dump.extend(&example()[53..64]);
    dump.extend(b"\x80\x01".repeat(count));
    dump.push(3);
    dump
}

#[test]
fn a_text_much_longer_than_its_dump() {
    let folder = Folder::new("large-text");
    folder.write("a", &long_named(300));
    let ran = folder.phd(&["text", "a"]).exits(0).no_stderr();
    assert_eq!(ran.out().matches(&long_name()).count(), 302);
    assert!(ran.out().ends_with(" : 302,1(0)\n"));
}

#[test]
fn exactly_as_much_memory_as_the_output_needs() {
    let folder = Folder::new("large-just");
    folder.write("a", &long_named(20_000));
    // The name 20,002 times, 17 bytes of version, 31 and 43 more for the first two records, 32 for each other, 128 of trailers.
    let run = "ulimit -v 400000; \"$PHD\" text a -o out";
    let ran = folder.shell(run).exits(2).no_stdout();
    ran.stderr_has(
        "phd: a: not enough memory for the output: 1,200,760,219 bytes were asked for\n",
    );
    assert_eq!(folder.names(), ["a"]);
}

/// Returns the example's class and objects that use the class cache better than a copy does: the copy writes the fifth object in
/// the short form, which fills no slot, so it must write four of the later classes in full where this dump has slots.
fn slots_used_well() -> Vec<u8> {
    let mut dump = example()[..57].to_vec();
    let full = |class: u8| vec![0x40, 1, 0, 0, class, 0];
    let by_slot = |slot: u8| vec![0x80 | slot << 5, 1];
    for class in [1, 2, 3, 4, 1, 5, 6, 7] {
        dump.extend(full(class));
    }
    dump.extend(by_slot(0));
    dump.extend(full(8));
    for slot in 1..4 {
        dump.extend(by_slot(slot));
    }
    dump
}

#[test]
fn a_copy_longer_than_its_dump() {
    let folder = Folder::new("large-copy");
    let dump = [&slots_used_well()[..], b"\x03"].concat();
    folder.write("a", &dump);
    folder.phd(&["copy", "a", "b"]).exits(0).no_stderr();
    assert_eq!(folder.read("b").len(), dump.len() + 4 * 4 - 4);
    folder.phd(&["copy", "b", "c"]).exits(0).no_stderr();
    assert_eq!(folder.read("c"), folder.read("b"));
    let ran = folder.phd(&["info", "a", "b"]).exits(0).no_stderr();
    assert_eq!(
        ran.out().matches("All of it was read: 14 records").count(),
        2
    );
}

/// Returns a class whose name has `name` bytes.
pub fn class(name: usize) -> Vec<u8> {
    let length = (name as u16).to_be_bytes();
    let start = b"\x06\0\x01\0\0\0\x10\0\0\0\0";
    [start, &length[..], &vec![b'N'; name], &[0; 4]].concat()
}

#[test]
fn a_copy_over_the_limit() {
    let folder = Folder::new("large-over");
    folder.write("old", b"as it was");
    // A dump that is exactly as long as the limit; its copy is longer.
    let (start, long) = (slots_used_well(), class(60_000));
    let rest = 1_073_741_824 - start.len() - 1;
    let last = [&class(rest % long.len() - class(0).len()), &b"\x03"[..]].concat();
    let mut child = folder.command(PHD);
    child.args(["copy", "-", "old"]).stdin(Stdio::piped());
    let mut child = child.stderr(Stdio::piped()).spawn().unwrap();
    let mut input = child.stdin.take().unwrap();
    input.write_all(&start).unwrap();
    for _ in 0..rest / long.len() {
        input.write_all(&long).unwrap();
    }
    input.write_all(&last).unwrap();
    drop(input);
    let ran = Ran::of(child.wait_with_output().unwrap()).exits(1);
    let message = "phd: standard input: no dump can be written of it (reply 17): \
                it would have more than 1,073,741,824 bytes\n";
    assert_eq!(ran.err, message);
    assert_eq!(folder.read("old"), b"as it was");
    assert_eq!(folder.names(), ["old"]);
}

/// Writes a sparse file of `size` bytes: `start`, followed by zeroes.
fn long_file(folder: &Folder, start: &[u8], size: u64) {
    folder.write("a", start);
    let file = File::options().write(true).open(folder.0.join("a"));
    file.unwrap().set_len(size).unwrap();
}

#[test]
fn no_progress_line_without_a_terminal() {
    let folder = Folder::new("large-quiet");
    long_file(&folder, &example(), 20_000_074);
    let ran = folder.phd(&["info", "a"]).exits(0).no_stderr();
    ran.stdout_has("20,000,000 bytes follow the end tag;");
    let ran = folder.phd(&["text", "a"]).exits(0).no_stderr();
    assert_eq!(ran.out(), TEXT);
}

#[test]
fn over_the_limit() {
    let folder = Folder::new("large-limit");
    long_file(&folder, &example(), 1_073_741_825);
    let ran = folder.phd(&["info", "a"]).exits(1).no_stderr();
    ran.stdout_has("a: refused (reply 2)\n")
        .stdout_has("The file has more than 1,073,741,824 bytes")
        .stdout_has("file size           more than 1,073,741,824 bytes\n");
    // A file without an end is read only until it is over the limit.
    let ran = folder.shell("timeout 60 \"$PHD\" info /dev/zero").exits(1);
    ran.stdout_has("/dev/zero: refused (reply 2)\n");
}

#[test]
fn no_memory() {
    let folder = Folder::new("large-memory");
    long_file(&folder, &example(), 100_000_000);
    let run = "ulimit -v 400000; \"$PHD\" copy a out";
    let ran = folder.shell(run).exits(2).no_stdout();
    ran.stderr_has("phd: a: not enough memory for its records: ")
        .stderr_has(" bytes were asked for\n");
    let run = "ulimit -v 90000; \"$PHD\" info a";
    let ran = folder.shell(run).exits(2).no_stdout();
    ran.stderr_has(
        "phd: a: not enough memory to hold the dump: 100,000,000 bytes were asked for\n",
    );
    let run = "ulimit -v 90000; \"$PHD\" info - <a";
    let ran = folder.shell(run).exits(2).no_stdout();
    ran.stderr_has("phd: standard input: not enough memory to hold the dump: ");
    assert_eq!(folder.names(), ["a"]);
}

#[test]
fn a_small_stack() {
    let folder = Folder::new("large-stack");
    for count in [60, 1000] {
        folder.write("a", &many_records(count));
        let run = "ulimit -s 256; \"$PHD\" classes a >/dev/null && \"$PHD\" info a >/dev/null && \
                   \"$PHD\" text a && \"$PHD\" copy a b";
        let ran = folder.shell(run).exits(0).no_stderr();
        let rows = count + 2;
        assert!(ran.out().ends_with(&format!(" : {rows},1(0)\n")));
        assert!(folder.read("b") == folder.read("a"));
    }
}

#[test]
fn no_memory_for_the_stack() {
    let folder = Folder::new("large-thread");
    folder.write("a", &example());
    // With some of these limits there is memory for the program and not for another 4 MB.
    let limits = (2000..20_000).step_by(500);
    let run = |limit| folder.shell(&format!("ulimit -v {limit}; \"$PHD\" text a -o out"));
    let message =
        "phd: a: no text can be made of it: a thread with a stack of 4 MB cannot be started: ";
    let refused = |ran: &Ran| ran.status == Some(2) && ran.err.contains(message);
    assert!(limits.clone().any(|limit| refused(&run(limit))));
    assert_eq!(folder.names(), ["a"]);
    run(20_000).exits(0).no_stderr();
    assert_eq!(folder.read("out"), TEXT.as_bytes());
    let run = |limit| folder.shell(&format!("ulimit -v {limit}; \"$PHD\" classes a"));
    let message =
        "phd: a: its records cannot be read: a thread with a stack of 4 MB cannot be started: ";
    let refused = |ran: &Ran| ran.status == Some(2) && ran.err.contains(message);
    assert!(limits.clone().any(|limit| refused(&run(limit))));
}

/// Objects of so many classes that the first list of classes is too short for them.
#[test]
fn many_classes() {
    let folder = Folder::new("large-classes");
    let mut heap = Builder::new();
    for at in 0..20_000 {
        heap.object(0x10_0000 + 16 * at, 4 * at);
    }
    folder.write("a", &heap.end());
    let ran = folder.phd(&["classes", "a", "--top", "1"]).exits(0);
    ran.no_stderr()
        .stdout_has("(19,999 others, 19,999 of them with unknown bytes)\n")
        .stdout_has("  20,000 classes\n")
        .stdout_has("of 20,000 objects: at most 319,984 for 19,999, and without a bound for 1.");
    let ran = folder.phd(&["info", "a"]).exits(0).no_stderr();
    ran.stdout_has("  20,000 classes in all\n");
}
