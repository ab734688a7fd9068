//! Tests of `phd info --rows`.

use crate::harness::{edited, example, Folder, HEADER, STARTS};

/// The table's first line, and the lines of the example's rows.
const HEADING: &str = "         row  offset      kind             address     class       hash             first        refs        size      length  name or type\n";
const ROWS: [&str; 4] = [
    "           0  0x00000026  class            0x00001000  0x00000000  none                 0           0          16           0  A at 0x00000034\n",
    "           1  0x00000039  object           0x00001010  0x00001000  none                 0           1           0           0\n",
    "           2  0x00000040  object           0x00001020  0x00001000  none                 1           0           0           0\n",
    "           3  0x00000042  primitive array  0x00001030  0x00000000  none                 1           0           6           3  [C\n",
];

/// Returns what `info --rows` prints after the report of `info`.
fn rows_of(folder: &Folder, dump: &[u8], status: i32) -> String {
    folder.write("a.phd", dump);
    let report = folder.phd(&["info", "a.phd"]).exits(status).no_stderr();
    let orders = [&["info", "--rows", "a.phd"], &["info", "a.phd", "--rows"]];
    let [one, two] = orders.map(|arguments| folder.phd(arguments).exits(status).no_stderr());
    assert_eq!(one.out(), two.out());
    let rows = one.out().strip_prefix(report.out());
    rows.expect("the report comes first").to_string()
}

#[test]
fn a_whole_dump() {
    let folder = Folder::new("rows-whole");
    let rows = rows_of(&folder, &example(), 0);
    assert_eq!(rows, format!("\n{HEADING}{}", ROWS.concat()));
}

#[test]
fn every_cut() {
    let folder = Folder::new("rows-every-cut");
    for size in 0..74 {
        let rows = rows_of(&folder, &example()[..size], 1);
        let whole = STARTS[1..].iter().filter(|place| **place <= size).count();
        let wanted = match whole {
            0 => "\n  No row was read.\n".into(),
            _ => format!("\n{HEADING}{}", ROWS[..whole].concat()),
        };
        assert_eq!(rows, wanted, "{size} bytes");
    }
}

#[test]
fn a_refused_dump() {
    let folder = Folder::new("rows-refused");
    let rows = rows_of(&folder, &edited(64, b"\xA0"), 1);
    assert_eq!(rows, format!("\n{HEADING}{}", ROWS[..2].concat()));
    let rows = rows_of(&folder, b"no dump at all", 1);
    assert_eq!(rows, "\n  No row was read.\n");
}

/// Tests 64-bit addresses, stored hashes and an object array.
#[test]
fn other_rows() {
    let folder = Folder::new("rows-other");
    let mut wide = HEADER.to_vec();
    wide[27] = 1;
    let moved = b"\x06\x08\x04\0\0\0\x10\0\0\0\x2A\0\0\0\0\0\0\0\0\0\x02[B\0\0\0\0";
    let array = b"\x08\x01\x04\0\0\0\0\0\0\0\x10\0\0\0\x01\x04\0\0\0\x06\0\0\0\x05";
    let rows = rows_of(&folder, &[&wide[..], moved, array, b"\x03"].concat(), 0);
    let lines = [
        "           0  0x00000026  class            0x0000000000000010  0x0000000000000000  0x0000002A           0           0          16           0  [B at 0x0000003B\n",
        "           1  0x00000041  object array     0x0000000000000020  0x0000000000000010  hashed               0           1           6           5\n",
    ];
    assert!(rows.ends_with(&lines.concat()), "{rows}");
    let mut hashed = HEADER.to_vec();
    hashed[27] = 2;
    let object = b"\x40\x04\0\0\x10\0\xBE\xEF";
    let rows = rows_of(&folder, &[&hashed[..], object, b"\x03"].concat(), 0);
    let line = "           0  0x00000026  object           0x00000010  0x00001000  0xBEEF               0           0           0           0\n";
    assert_eq!(rows, format!("\n{HEADING}{line}"));
}

#[test]
fn several_files() {
    let folder = Folder::new("rows-several");
    folder.write("a", &example()).write("b", &example()[..65]);
    let ran = folder
        .phd(&["info", "--rows", "a", "b"])
        .exits(1)
        .no_stderr();
    let all = format!("\n{HEADING}{}\nb: cut off", ROWS.concat());
    ran.stdout_has(&all);
}

/// Rows that are printed in many parts are complete, and the reader may stop early.
#[test]
fn many_rows() {
    let folder = Folder::new("rows-many");
    let objects = b"\x40\x04\0\0\x10\0".repeat(5_000);
    folder.write("a", &[HEADER, &objects, b"\x03"].concat());
    let ran = folder.phd(&["info", "--rows", "a"]).exits(0).no_stderr();
    let table = ran.out().split("length  name or type\n").nth(1);
    let lines: Vec<&str> = table.expect("a table").lines().collect();
    assert_eq!(lines.len(), 5_000);
    for (index, line) in lines.into_iter().enumerate() {
        let (offset, address) = (38 + 6 * index, 16 * (index + 1));
        let wanted = format!("{index:>12}  0x{offset:08X}  object           0x{address:08X}  ");
        assert!(line.starts_with(&wanted), "{line}");
    }
    let ran = folder.shell("\"$PHD\" info --rows a | head -n 30 | tail -n 1");
    ran.exits(0).no_stderr().stdout_has("0x000000");
}
