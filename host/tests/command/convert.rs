//! Tests of `phd text` and `phd copy` with dumps that are whole, cut off or damaged.

use crate::harness::{edited, example, Folder, STARTS, TEXT};

#[test]
fn text_of_the_example() {
    let folder = Folder::new("text-whole");
    folder.write("a.phd", &example());
    let ran = folder.phd(&["text", "a.phd"]).exits(0).no_stderr();
    assert_eq!(ran.out(), TEXT);
    let ran = folder.phd(&["text", "a.phd", "-o", "a.txt"]).exits(0);
    ran.no_stderr().no_stdout();
    assert_eq!(folder.read("a.txt"), TEXT.as_bytes());
    folder.phd(&["text", "-o", "b.txt", "a.phd"]).exits(0);
    assert_eq!(folder.read("b.txt"), TEXT.as_bytes());
    assert_eq!(folder.names(), ["a.phd", "a.txt", "b.txt"]);
}

#[test]
fn copy_of_the_example() {
    let folder = Folder::new("copy-whole");
    folder.write("a.phd", &example());
    let ran = folder.phd(&["copy", "a.phd", "b.phd"]).exits(0);
    ran.no_stderr().no_stdout();
    assert_eq!(folder.read("b.phd"), example());
    assert_eq!(folder.names(), ["a.phd", "b.phd"]);
}

#[test]
fn text_of_a_cut_dump() {
    let folder = Folder::new("text-cut");
    folder.write("a.phd", &example()[..65]);
    let ran = folder.phd(&["text", "a.phd"]).exits(1);
    let text = "\
// Version: Test
0x00001000 [0] CLS A
0x00000000
0x00001010 [16] OBJ A
0x00001000 0x00001020
// Breakdown - Classes: 1, Objects: 1, ObjectArrays: 0, PrimitiveArrays: 0
// EOF:  Total 'Objects',Refs(null) : 2,1(0)
";
    assert_eq!(ran.out(), text);
    let message = "\
phd: a.phd: cut off (reply 1). The file ends inside the record that begins at byte 64 (0x40), after 1 byte of it.
phd: a.phd: kept are the records before that place: 2 \
(classes 1, objects 1, object arrays 0, primitive arrays 0) with 1 reference
";
    assert_eq!(ran.err, message);
}

#[test]
fn copy_of_every_cut_is_whole() {
    let folder = Folder::new("copy-cut");
    for size in 38..74 {
        let whole = STARTS.iter().rfind(|place| **place <= size).unwrap();
        folder.write("a.phd", &example()[..size]);
        let ran = folder.phd(&["copy", "a.phd", "b.phd"]).exits(1);
        ran.no_stdout()
            .stderr_has("phd: a.phd: cut off (reply 1). ");
        let copy = [&example()[..*whole], b"\x03"].concat();
        assert_eq!(folder.read("b.phd"), copy);
        let ran = folder.phd(&["info", "b.phd"]).exits(0).no_stderr();
        ran.stdout_has("b.phd: whole (reply 0)\n");
    }
}

#[test]
fn copy_and_text_of_a_damaged_dump() {
    let folder = Folder::new("copy-damaged");
    folder.write("a.phd", &edited(64, b"\xA0"));
    let ran = folder.phd(&["copy", "a.phd", "b.phd"]).exits(1);
    ran.stderr_has("phd: a.phd: refused (reply 10). The record at byte 64 (0x40) ")
        .stderr_has("phd: a.phd: kept are the records before that place: 2 (");
    assert_eq!(folder.read("b.phd"), [&example()[..64], b"\x03"].concat());
    let ran = folder.phd(&["text", "a.phd"]).exits(1);
    ran.stderr_has("refused (reply 10)")
        .stdout_has("// EOF:  Total 'Objects',Refs(null) : 2,1(0)\n");
}

#[test]
fn a_dump_without_a_header_gives_nothing() {
    let folder = Folder::new("convert-nothing");
    folder
        .write("empty", b"")
        .write("header", &example()[..37])
        .write("other", b"no dump, but a letter")
        .write("old", b"as it was");
    let files = [
        ("empty", "cut off (reply 1). The file is empty."),
        (
            "header",
            "cut off (reply 1). The file ends inside the header, after 37 bytes of it.",
        ),
        (
            "other",
            "refused (reply 3). The file does not begin with the words",
        ),
    ];
    for (file, message) in files {
        for out in ["new", "old"] {
            for command in [&["copy", file, out][..], &["text", file, "-o", out]] {
                let ran = folder.phd(command).exits(1).no_stdout();
                ran.stderr_has(&format!("phd: {file}: {message}"))
                    .stderr_has("nothing is written");
            }
        }
        folder.phd(&["text", file]).exits(1).no_stdout();
    }
    assert_eq!(folder.read("old"), b"as it was");
    assert_eq!(folder.names(), ["empty", "header", "old", "other"]);
}

#[test]
fn text_needs_the_class() {
    let folder = Folder::new("text-class");
    let dump = [&example()[..38], b"\x40\x04\0\0\x10\0\x80\x04"].concat();
    folder
        .write("cut", &dump)
        .write("whole", &[&dump[..], b"\x03"].concat());
    let ran = folder.phd(&["text", "whole", "-o", "out"]).exits(1);
    let message = "phd: whole: no text can be written of it (reply 18): \
                record 0 (counted from 0), which begins at byte 38 (0x26), has the address 0x10 and \
                the class at 0x1000, and no such class was read\n";
    assert_eq!(ran.err, message);
    let ran = folder.phd(&["text", "cut"]).exits(1).no_stdout();
    ran.stderr_has("it may lie after that place");
    folder.phd(&["copy", "cut", "copy"]).exits(1);
    assert_eq!(folder.read("copy"), folder.read("whole"));
    assert_eq!(folder.names(), ["copy", "cut", "whole"]);
}
