//! Tests of `phd info`.

use crate::builder::Builder;
use crate::harness::{edited, example, Folder, FIELDS, STARTS};
use phd_host::reply;

#[test]
fn a_whole_dump() {
    let folder = Folder::new("info-whole");
    folder.write("a.phd", &example());
    let ran = folder.phd(&["info", "a.phd"]).exits(0).no_stderr();
    let report = "\
a.phd: whole (reply 0)
  All of it was read: 4 records, up to the end tag at byte 73 (0x49).
  Nothing follows the end tag.

                           records      references           nulls
  classes                        1               0               0
  objects                        2               1               0
  object arrays                  0               0               0
  primitive arrays               1               0               0
  all                            4               1               0

  file size           74 bytes
  address width       32 bit
  all objects hashed  no
  from OpenJ9         yes
  VM version          \"Test\"

               bytes     share     instances  largest classes
                  32    57.1 %             2  A
                  24    42.8 %             1  char[]
                  56   100.0 %             3  2 classes in all
";
    assert_eq!(ran.out(), report);
}

#[test]
fn the_same_dump_cut_off() {
    let folder = Folder::new("info-cut");
    folder.write("a.phd", &example()[..65]);
    let ran = folder.phd(&["info", "a.phd"]).exits(1).no_stderr();
    let report = "\
a.phd: cut off (reply 1)
  The file ends inside the record that begins at byte 64 (0x40), after 1 byte of it.
  At least 1 byte of the dump is missing: what the field at its end still lacked.
  The 2 records before that place were read whole and are right.

                           records      references           nulls
  classes                        1               0               0
  objects                        1               1               0
  object arrays                  0               0               0
  primitive arrays               0               0               0
  all                            2               1               0

  file size           65 bytes
  address width       32 bit
  all objects hashed  no
  from OpenJ9         yes
  VM version          \"Test\"

               bytes     share     instances  largest classes
                  16   100.0 %             1  A
                  16   100.0 %             1  1 class in all
";
    assert_eq!(ran.out(), report);
}

/// Returns the message about where a file with the first `size` bytes of the example ends.
fn ending(size: usize) -> String {
    let bytes = |count| if count == 1 { "byte" } else { "bytes" };
    let begun = STARTS.iter().rfind(|start| **start <= size);
    match begun {
        None if size == 0 => "The file is empty.".into(),
        None => {
            let bytes = bytes(size);
            format!("The file ends inside the header, after {size} {bytes} of it.")
        }
        Some(&place) if place == size => format!(
            "The file ends at byte {place} (0x{place:X}), where a record or the end tag must begin."
        ),
        Some(&place) => {
            let (there, bytes) = (size - place, bytes(size - place));
            let record = format!("the record that begins at byte {place} (0x{place:X})");
            format!("The file ends inside {record}, after {there} {bytes} of it.")
        }
    }
}

/// Returns the message about the missing bytes of a file with the first `size` bytes of the example.
fn missing(size: usize) -> String {
    let mut end = 0;
    for width in FIELDS.concat() {
        end += width;
        if size < end {
            break;
        }
    }
    let bytes = match end - size {
        1 => "1 byte of the dump is".into(),
        missing => format!("{missing} bytes of the dump are"),
    };
    format!("At least {bytes} missing: what the field at its end still lacked.")
}

#[test]
fn every_cut() {
    let folder = Folder::new("info-every-cut");
    for size in 0..74 {
        folder.write("a.phd", &example()[..size]);
        let ran = folder.phd(&["info", "a.phd"]).exits(1).no_stderr();
        let (ending, missing) = (ending(size), missing(size));
        let first = format!("a.phd: cut off (reply 1)\n  {ending}\n  {missing}\n");
        assert!(ran.out().starts_with(&first), "{first}{}", ran.out());
        let begun = STARTS.iter().filter(|place| **place <= size).count();
        let before = match begun {
            0 => "  No record was read, and nothing is known of the header.\n".into(),
            1 => "  No record lies before that place.\n".into(),
            2 => "  The 1 record before that place was read whole and is right.\n".into(),
            _ => format!(
                "  The {} records before that place were read whole and are right.\n",
                begun - 1
            ),
        };
        let ran = ran.stdout_has(&before);
        assert_eq!(ran.out().contains("VM version"), begun > 0, "{}", ran.out());
    }
}

#[test]
fn bytes_after_the_end_tag() {
    let folder = Folder::new("info-after");
    folder.write("one", &[&example()[..], b"x"].concat());
    folder.write("more", &[&example()[..], &[3; 1234]].concat());
    let ran = folder.phd(&["info", "one", "more"]).exits(0).no_stderr();
    ran.stdout_has("1 byte follows the end tag; it is no part of the dump.")
        .stdout_has("1,234 bytes follow the end tag; they are no part of the dump.")
        .stdout_has("file size           1,308 bytes");
}

#[test]
fn flags_and_vm_version() {
    let folder = Folder::new("info-header");
    let start = &example()[..24];
    let plain = [start, b"\0\0\0\x03\x01\x02\x02\x03"].concat();
    let empty = [start, b"\0\0\0\0\x01\x04\0\0\x02\x02\x03"].concat();
    folder.write("plain", &plain).write("empty", &empty);
    let ran = folder.phd(&["info", "plain"]).exits(0);
    ran.stdout_has("address width       64 bit\n")
        .stdout_has("all objects hashed  yes\n")
        .stdout_has("from OpenJ9         no\n")
        .stdout_has("VM version          not given\n")
        .stdout_has("All of it was read: 0 records, up to the end tag at byte 31 (0x1F).");
    let ran = folder.phd(&["info", "empty"]).exits(0);
    ran.stdout_has("address width       32 bit\n")
        .stdout_has("all objects hashed  no\n")
        .stdout_has("VM version          \"\"\n");
}

/// Returns an object array of class A with `refs` references to itself and a true length.
fn array(refs: u8, length: u32) -> Vec<u8> {
    let mut record = b"\x08\0\x04\0\0\x10\0\0\0\0".to_vec();
    record.push(refs);
    record.extend(vec![0; refs.into()]);
    record.extend(b"\0\0\0\x05");
    record.extend(length.to_be_bytes());
    record
}

/// Returns the example with more records.
fn with(records: &[Vec<u8>]) -> Vec<u8> {
    [&example()[..73], &records.concat(), b"\x03"].concat()
}

#[test]
fn every_kind_of_record() {
    let folder = Folder::new("info-kinds");
    folder.write("a.phd", &with(&[array(2, 1_000_002)]));
    let ran = folder.phd(&["info", "a.phd"]).exits(0);
    ran.stdout_has("  classes                        1               0               0\n")
        .stdout_has("  objects                        2               1               0\n")
        .stdout_has("  object arrays                  1               2       1,000,000\n")
        .stdout_has("  primitive arrays               1               0               0\n")
        .stdout_has("  all                            5               3       1,000,000\n");
}

/// Arrays without nulls, with some, with only nulls, and several of them: the counts of `info` and of the end of the text.
#[test]
fn nulls_in_info_and_in_the_text() {
    let folder = Folder::new("info-nulls");
    let most = u32::MAX >> 1;
    let trials = [
        (vec![], [0, 0, 0]),
        (vec![array(0, 0), array(3, 3)], [2, 3, 0]),
        (vec![array(2, 5)], [1, 2, 3]),
        (vec![array(0, 4)], [1, 0, 4]),
        (vec![array(0, 1), array(2, 5), array(1, 1)], [3, 3, 4]),
        (
            vec![array(1, most), array(0, most), array(1, most)],
            [3, 2, 3 * u64::from(most) - 2],
        ),
    ];
    for (records, [arrays, refs, nulls]) in trials {
        folder.write("a.phd", &with(&records));
        let ran = folder.phd(&["info", "a.phd"]).exits(0).no_stderr();
        let numbers = |name: &str| -> Vec<u64> {
            let lines = ran.out().lines().map(str::trim);
            let line = lines.filter_map(|line| line.strip_prefix(name)).next();
            let numbers = line.unwrap().replace(',', "");
            let numbers = numbers.split_whitespace().map(str::parse);
            numbers.collect::<Result<_, _>>().unwrap()
        };
        let (rows, listed) = (arrays + 4, refs + 1);
        assert_eq!(numbers("object arrays "), [arrays, refs, nulls]);
        assert_eq!(numbers("all "), [rows, listed, nulls]);
        let all = listed + nulls;
        let last = format!("\n// EOF:  Total 'Objects',Refs(null) : {rows},{all}({nulls})\n");
        let ran = folder.phd(&["text", "a.phd"]).exits(0).no_stderr();
        assert!(ran.out().ends_with(&last), "{last}{}", ran.out());
    }
}

/// The three largest classes, and the sum over all of them.
#[test]
fn the_largest_classes() {
    let folder = Folder::new("info-largest");
    let mut heap = Builder::new();
    for (name, size, address) in [("a/A", 24, 0x100), ("a/B", 40, 0x104), ("a/C", 8, 0x108)] {
        heap.class(address, name, size);
    }
    for at in 0..9 {
        heap.object(0x1000 + 64 * at, [0x100, 0x104, 0x108][at as usize % 3]);
    }
    heap.array(0x2000, 0x100, 3, 300).primitive(0x3000, 6, 5);
    folder.write("a", &heap.end());
    let ran = folder.phd(&["info", "a"]).exits(0).no_stderr();
    let end = "
               bytes     share     instances  largest classes
               1,200    83.5 %             1  a.A[]
                 120     8.3 %             3  a.B
                  72     5.0 %             3  a.A
               1,436   100.0 %            11  5 classes in all
";
    assert!(ran.out().ends_with(end), "{}", ran.out());
}

/// Classes whose record was not read are not among the largest, and their objects are counted.
#[test]
fn classes_that_are_missing() {
    let folder = Folder::new("info-missing");
    let mut heap = Builder::new();
    heap.object(0x1000, 0x100).object(0x1010, 0x104);
    heap.primitive(0x1020, 1, 2);
    folder.write("a", &heap.end());
    let ran = folder.phd(&["info", "a"]).exits(0).no_stderr();
    let end = "
               bytes   known %     instances  largest classes
                   8   100.0 %             1  char[]
                >= 8   100.0 %             3  3 classes in all
  Not in this sum are the bytes of 2 objects: the records of their classes were not read.
";
    assert!(ran.out().ends_with(end), "{}", ran.out());
}

#[test]
fn no_classes_of_an_empty_heap() {
    let folder = Folder::new("info-empty");
    let mut heap = Builder::new();
    folder.write("none", &Builder::new().end());
    folder.write("class", &heap.class(0x100, "A", 8).end());
    let ran = folder.phd(&["info", "none", "class"]).exits(0).no_stderr();
    assert!(!ran.out().contains("largest"), "{}", ran.out());
}

/// Errors in the header of the example: a place, other bytes there, the reply, and the message.
const BAD_HEADERS: [(usize, &[u8], u64, &str); 5] = [
    (
        0,
        b"xx",
        reply::NO_DUMP,
        "The file does not begin with the words 'portable",
    ),
    (
        23,
        b"\x07",
        reply::BAD_VERSION,
        "The version in the header is not 6",
    ),
    (
        27,
        b"\x0C",
        reply::BAD_FLAG,
        "The header has a flag that no one knows.",
    ),
    (
        28,
        b"\x05",
        reply::BAD_TAG,
        "The header has a byte that is not allowed",
    ),
    (
        32,
        b"\x1F",
        reply::BAD_STRING,
        "The VM version in the header has a byte",
    ),
];

/// Errors in a record of the example: a place, other bytes there, the reply, its place, and the message.
const BAD_RECORDS: [(usize, &[u8], u64, usize, &str); 5] = [
    (
        64,
        b"\x05",
        reply::BAD_TAG,
        64,
        "begins with a byte that no record begins",
    ),
    (
        52,
        b"\x20",
        reply::BAD_STRING,
        38,
        "is a class without a name, or with a byte",
    ),
    (
        40,
        b"\x80\0",
        reply::OUT_OF_RANGE,
        38,
        "has an address or a reference outside",
    ),
    (
        64,
        b"\xA0",
        reply::EMPTY_SLOT,
        64,
        "names its class by a slot that nothing",
    ),
    (
        53,
        b"\x80",
        reply::BAD_COUNT,
        38,
        "has a count, a length or a class size",
    ),
];

/// Checks the report about a dump that is refused.
fn refused(folder: &Folder, dump: &[u8], reply: u64, message: &str) {
    folder.write("a.phd", dump);
    let ran = folder.phd(&["info", "a.phd"]).exits(1).no_stderr();
    let first = format!("a.phd: refused (reply {reply})\n  {message}");
    assert!(ran.out().starts_with(&first), "{first}\n{}", ran.out());
}

#[test]
fn every_refusal() {
    let folder = Folder::new("info-refused");
    for (place, bytes, reply, message) in BAD_HEADERS {
        refused(&folder, &edited(place, bytes), reply, message);
    }
    for (place, bytes, reply, tag, message) in BAD_RECORDS {
        let message = format!("The record at byte {tag} (0x{tag:X}) {message}");
        refused(&folder, &edited(place, bytes), reply, &message);
    }
    let null = b"\x49\x04\0\0\x10\0\xFB\xFC";
    let null = [&example()[..57], &null[..], &example()[64..]].concat();
    let message = "The record at byte 57 (0x39) has a reference that is null.\n  \
                 The 1 record before that place was read whole and is right. Nothing after it was read.\n";
    refused(&folder, &null, reply::NULL_REF, message);
    let mut hashed = edited(27, b"\x06");
    hashed[39] = 0x48;
    let message = "The record at byte 38 (0x26) has hash bits of its own";
    refused(&folder, &hashed, reply::HASH_BITS, message);
}

#[test]
fn several_files_and_the_worst_status() {
    let folder = Folder::new("info-several");
    folder
        .write("whole", &example())
        .write("cut", &example()[..64])
        .write("other", &example());
    folder.phd(&["info", "whole", "other"]).exits(0).no_stderr();
    let ran = folder.phd(&["info", "whole", "cut", "other"]).exits(1);
    ran.stdout_has("whole: whole (reply 0)\n")
        .stdout_has("\n\ncut: cut off (reply 1)\n")
        .stdout_has("\n\nother: whole (reply 0)\n");
    let ran = folder.phd(&["info", "none", "cut", "whole"]).exits(2);
    ran.stderr_has("phd: none: no such file\n")
        .stdout_has("cut: cut off (reply 1)\n")
        .stdout_has("\n\nwhole: whole (reply 0)\n");
}
