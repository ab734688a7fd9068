//! Tests the C header with a C program: the answers that it gets are those that Rust gets.

use phd_host::answer::{self, Answer};
use phd_host::row::{OFFSET, ROW_LEN};
use phd_host::summary::{mark, Summary};
use phd_host::tables::Tables;
use phd_host::{library, reply};
use std::fs::File;
use std::path::Path;
use std::process::{Command, Stdio};

/// Builds tests/header/try.c with the header and the library, and returns the program's path.
fn build_program() -> String {
    let here = Path::new(env!("CARGO_MANIFEST_DIR"));
    let root = here.join("..");
    let program = format!("{}/try-header", env!("CARGO_TARGET_TMPDIR"));
    let status = Command::new("cc")
        .args(["-std=c99", "-Wall", "-Wextra", "-pedantic", "-Werror", "-o"])
        .arg(&program)
        .arg("-I")
        .arg(root.join("include"))
        .arg(here.join("tests/header/try.c"))
        .arg(root.join("crates/phd_c/out/libphd_c.a"))
        .status()
        .expect("cc runs");
    assert!(status.success(), "the C program is built without a warning");
    program
}

/// Formats the answer of a call as the C program does.
fn line(call: &str, reply: u64, answer: &Answer) -> String {
    let numbers: Vec<String> = answer.iter().map(u64::to_string).collect();
    format!("{call} {reply} {}\n", numbers.join(" "))
}

/// Formats a class summary as the C program does.
fn class_line(entry: &Summary) -> String {
    let name = match entry.mark {
        mark::CLASS_WORD => "class",
        _ => "type",
    };
    let Summary {
        class,
        mark,
        instances,
        bytes,
        refs,
        waiting,
    } = entry;
    format!("{name} {class} {mark} {instances} {bytes} {refs} {waiting}\n")
}

/// Returns what the C program must print for a dump.
fn expected(dump: &[u8]) -> String {
    let mut text = String::new();
    for size in (30..36).chain([dump.len()]) {
        let (rows, refs) = (library::max_rows(size), library::max_refs(size));
        text += &format!("max of {size}: {rows} {refs}\n");
    }
    let (mut rows, mut refs) = (vec![0; 1 << 16], vec![0; 1 << 16]);
    let mut answer = [0; 16];
    let mut list = vec![Summary::default(); library::max_rows(dump.len())];
    for call in ["read", "read with a short list"] {
        let reply = library::read(dump, &mut rows, &mut refs, &mut list, &mut answer);
        text += &line(call, reply, &answer);
        list.truncate(answer[answer::CLASSES] as usize);
        text += &list.iter().map(class_line).collect::<String>();
        list.pop();
    }
    let reply = library::read_tables(dump, &mut rows, &mut refs, &mut answer);
    text += &line("read tables", reply, &answer);
    let tables = Tables {
        header: answer::header(&answer),
        rows: &rows[..answer[answer::ROWS] as usize * ROW_LEN],
        refs: &refs[..answer[answer::REFS] as usize],
        names: dump,
    };
    for row in tables.rows.chunks_exact(ROW_LEN) {
        text += &format!("row at {}\n", row[OFFSET]);
    }
    let reply = library::write_size(&tables, &mut answer);
    text += &line("write size", reply, &answer);
    let mut out = vec![0; answer[answer::PLACE] as usize];
    let reply = library::write(&tables, &mut out, &mut answer);
    text += &line("write", reply, &answer);
    let reply = library::text_size(&tables, &mut answer);
    text += &line("text size", reply, &answer);
    let mut out = vec![0; answer[answer::PLACE] as usize];
    let reply = library::text(&tables, &mut out, &mut answer);
    text += &line("text", reply, &answer);
    text + std::str::from_utf8(&out).expect("a text is ASCII")
}

#[test]
fn a_c_program_gets_the_same() {
    let program = build_program();
    for (name, reply) in [("heap.phd", reply::DONE), ("heap-cut.phd", reply::CUT)] {
        let path = Path::new(env!("CARGO_MANIFEST_DIR"))
            .join("../samples")
            .join(name);
        let dump = std::fs::read(&path).expect("the sample is there");
        let output = Command::new(&program)
            .stdin(Stdio::from(File::open(&path).expect("the sample is there")))
            .output()
            .expect("the C program runs");
        let printed = String::from_utf8(output.stdout).expect("a text is ASCII");
        assert!(
            printed.contains(&format!("\nread {reply} {reply} ")),
            "{name}: {printed}"
        );
        let no_entry = reply::NO_ENTRY;
        let short = format!("\nread with a short list {no_entry} {no_entry} ");
        assert!(printed.contains(&short), "{name}: {printed}");
        assert!(
            printed.starts_with("max of 30: 0 0\nmax of 31: 0 0\nmax of 32: 0 1\nmax of 33: 1 2\n"),
            "{name}: {printed}"
        );
        assert!(printed.contains("// EOF:  Total"), "{name}: {printed}");
        assert_eq!(printed, expected(&dump), "{name}");
    }
}
