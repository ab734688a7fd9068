//! Tests of `phd classes` on whole dumps: the table, its order, names, and outputs.

use crate::builder::Builder;
use crate::harness::{example, Folder, PHD};

/// Returns a heap with five lines: objects and arrays of `com/x/Y`, objects of `java/lang/String`, char arrays, and arrays of byte
/// arrays. A class without instances has none.
fn heap() -> Builder {
    let mut heap = Builder::new();
    heap.class(0x100, "java/lang/String", 24)
        .class(0x104, "com/x/Y", 16)
        .class(0x108, "[B", 0)
        .class(0x10C, "com/x/Unused", 8);
    for at in 0..10 {
        heap.object(0x1000 + 32 * at, 0x100);
        heap.primitive(0x1018 + 32 * at, 1, 2);
    }
    heap.object(0x2000, 0x104).object(0x2010, 0x104);
    heap.array(0x3000, 0x104, 3, 150)
        .array(0x4000, 0x104, 0, 50);
    heap.array(0x5000, 0x108, 2, 5);
    heap
}

/// The table of `heap`.
const TABLE: &str = "\
a.phd: whole (reply 0)
  All of it was read: 29 records, up to the end tag at byte 536 (0x218).

  rank              bytes    share  cumulative     instances       average                        class
     1                800   68.2 %      68.2 %             2           400  ##############        com.x.Y[]
     2                240   20.4 %      88.7 %            10            24  ####                  java.lang.String
     3                 80    6.8 %      95.5 %            10             8  #                     char[]
     4                 32    2.7 %      98.2 %             2            16  #                     com.x.Y
     5                 20    1.7 %     100.0 %             1            20                        byte[][]
 total              1,172  100.0 %     100.0 %            25            46                        5 classes
";

/// Returns the class of each line of the table: the words after the bar, without the line of the total.
fn classes(table: &str) -> Vec<&str> {
    let lines = table.lines().skip_while(|line| !line.contains("  rank "));
    let names = lines.skip(1).map(|line| line[91..].trim());
    let names: Vec<&str> = names.collect();
    names[..names.len() - 1].to_vec()
}

#[test]
fn a_whole_dump() {
    let folder = Folder::new("classes-whole");
    folder.write("a.phd", &heap().end());
    let ran = folder.phd(&["classes", "a.phd"]).exits(0).no_stderr();
    assert_eq!(ran.out(), TABLE);
}

/// The same bytes, wherever the class records are.
#[test]
fn class_records_at_the_end() {
    let folder = Folder::new("classes-late");
    let mut heap = Builder::new();
    heap.object(0x1000, 0x100).object(0x1020, 0x104);
    heap.class(0x100, "A", 24).class(0x104, "B", 8);
    // A second class record with the same address does not count.
    heap.class(0x104, "C", 1000);
    folder.write("a", &heap.end());
    let ran = folder.phd(&["classes", "a"]).exits(0).no_stderr();
    ran.stdout_has(
        "     1                 24   75.0 %      75.0 %             1            24  ###############       A\n",
    )
    .stdout_has(
        "     2                  8   25.0 %     100.0 %             1             8  #####                 B\n",
    )
    .stdout_has(" total                 32  100.0 %     100.0 %             2            16                        2 classes\n");
}

#[test]
fn every_order() {
    let folder = Folder::new("classes-sort");
    folder.write("a", &heap().end());
    let order = |sort: &[&str]| {
        let ran = folder.phd(&[&["classes", "a"], sort].concat()).exits(0);
        let classes = classes(ran.no_stderr().out()).join(" ");
        classes
    };
    let by_bytes = "com.x.Y[] java.lang.String char[] com.x.Y byte[][]";
    assert_eq!(order(&[]), by_bytes);
    assert_eq!(order(&["--sort", "bytes"]), by_bytes);
    let by_instances = "char[] java.lang.String com.x.Y com.x.Y[] byte[][]";
    assert_eq!(order(&["--sort", "instances"]), by_instances);
    let by_name = "byte[][] char[] com.x.Y com.x.Y[] java.lang.String";
    assert_eq!(order(&["--sort", "name"]), by_name);
    let raw = "[C [Lcom/x/Y; [[B com/x/Y java/lang/String";
    assert_eq!(order(&["--sort", "name", "--raw"]), raw);
    let raw = "[Lcom/x/Y; java/lang/String [C com/x/Y [[B";
    assert_eq!(order(&["--raw"]), raw);
}

/// Of the classes that are not shown there is a sum. As many classes as there are, or more, are all of them.
#[test]
fn the_top_of_the_list() {
    let folder = Folder::new("classes-top");
    folder.write("a.phd", &heap().end());
    let top = |number| {
        let ran = folder.phd(&["classes", "--top", number, "a.phd"]);
        ran.exits(0).no_stderr().out().to_string()
    };
    let rest = "                      132   11.2 %     100.0 %            13            10                        (3 others)\n";
    let two = top("2");
    let lines: Vec<&str> = two.lines().collect();
    let all: Vec<&str> = TABLE.lines().collect();
    assert_eq!(lines[..6], all[..6]);
    assert_eq!(format!("{}\n", lines[6]), rest);
    assert_eq!(lines[7..], all[9..]);
    assert!(top("4").contains("(1 other)\n"));
    assert_eq!(top("5"), TABLE);
    assert_eq!(top("1000000"), TABLE);
}

/// Two classes of one name are two lines, with their addresses. Objects whose class is named like char arrays are another line than these.
#[test]
fn classes_of_one_name() {
    let folder = Folder::new("classes-same");
    let mut heap = Builder::new();
    heap.class(0x100, "A", 24).class(0x104, "A", 16);
    heap.class(0x108, "[C", 12);
    heap.object(0x1000, 0x100).object(0x1020, 0x104);
    heap.object(0x1040, 0x108).primitive(0x1060, 1, 1);
    folder.write("a", &heap.end());
    let ran = folder.phd(&["classes", "a"]).exits(0).no_stderr();
    let names = [
        "A (class at 0x00000100)",
        "A (class at 0x00000104)",
        "char[] (class at 0x00000108)",
        "char[]",
    ];
    assert_eq!(classes(ran.out()), names);
}

#[test]
fn very_long_names() {
    let folder = Folder::new("classes-long");
    let (long, just) = ("N".repeat(60_000), "M".repeat(200));
    let mut heap = Builder::new();
    heap.class(0x100, &long, 24).class(0x104, &just, 16);
    heap.object(0x1000, 0x100).object(0x1020, 0x104);
    folder.write("a", &heap.end());
    let ran = folder.phd(&["classes", "a"]).exits(0).no_stderr();
    let shown = format!("{}.. (60,000 characters)", &long[..200]);
    assert_eq!(classes(ran.out()), [&shown, &just]);
    let ran = folder.phd(&["classes", "--csv", "a"]).exits(0).no_stderr();
    ran.stdout_has(&format!("\n{long},{long},0x00000100,"));
    let ran = folder.phd(&["info", "a"]).exits(0).no_stderr();
    ran.stdout_has(&format!("  {shown}\n"));
}

#[test]
fn an_empty_heap() {
    let folder = Folder::new("classes-empty");
    let mut heap = Builder::new();
    folder.write("none", &heap.end());
    folder.write("class", &heap.class(0x100, "A", 8).end());
    for (file, records, tag) in [("none", "0 records", 38), ("class", "1 record", 59)] {
        let ran = folder.phd(&["classes", file]).exits(0).no_stderr();
        let report = format!(
            "{file}: whole (reply 0)\n  All of it was read: {records}, up to the end tag at byte {tag} (0x{tag:X}).\n\n  \
             No object and no array was read.\n"
        );
        assert_eq!(ran.out(), report);
    }
}

/// Arrays and objects without bytes have no share.
#[test]
fn no_bytes_at_all() {
    let folder = Folder::new("classes-zero");
    let mut heap = Builder::new();
    heap.class(0x100, "A", 0).object(0x1000, 0x100);
    folder.write("a", &heap.end());
    let ran = folder.phd(&["classes", "a"]).exits(0).no_stderr();
    ran.stdout_has("     1                  0    0.0 %       0.0 %             1             0                        A\n");
}

#[test]
fn an_output_file() {
    let folder = Folder::new("classes-output");
    folder.write("a.phd", &heap().end()).write("out", b"old");
    let ran = folder.phd(&["classes", "a.phd", "-o", "out"]).exits(0);
    ran.no_stderr().no_stdout();
    assert_eq!(folder.read("out"), TABLE.as_bytes());
    let ran = folder.phd(&["classes", "-o", "-", "a.phd"]).exits(0);
    assert_eq!(ran.no_stderr().out(), TABLE);
    let ran = folder.phd(&["classes", "a.phd", "--csv", "-o", "b"]);
    ran.exits(0).no_stderr().no_stdout();
    let csv = folder.phd(&["classes", "a.phd", "--csv"]).exits(0);
    assert_eq!(folder.read("b"), csv.out);
    let ran = folder.phd(&["classes", "a.phd", "-o", "none/out"]).exits(2);
    ran.no_stdout()
        .stderr_has("phd: none/out: cannot be written");
    assert_eq!(folder.names(), ["a.phd", "b", "out"]);
}

#[test]
fn standard_input() {
    let folder = Folder::new("classes-input");
    let ran = folder.phd_with_input(&["classes", "-"], &example());
    ran.exits(0)
        .no_stderr()
        .stdout_has("standard input: whole (reply 0)\n")
        .stdout_has("  A\n");
}

#[test]
fn a_reader_that_goes_away() {
    let folder = Folder::new("classes-closed");
    let mut heap = Builder::new();
    for at in 0..20_000 {
        heap.object(0x10_0000 + 16 * at, 4 * at);
    }
    folder.write("a", &heap.end());
    let line = format!("{PHD} classes a | head -n 1");
    let ran = folder.shell(&line).exits(0).no_stderr();
    assert_eq!(ran.out(), "a: whole (reply 0)\n");
}
