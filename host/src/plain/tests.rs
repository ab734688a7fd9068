//! Tests of the worked example of the scope paper (01): the whole dump, its cuts with their missing bytes, its text, and its class
//! summaries. Also of the nulls of arrays.

use super::answer::{Answer, CLASSES, MISSING, PLACE, REPLY, ROWS as ROW_COUNT};
use super::{
    read, read_tables, text, text_size, write, write_size, Reply, Tables, OBJECT_ARRAY, ROW_LEN,
};
use crate::summary::Summary;

/// The widths of the example's fields, in file order: the header, the four records and the end tag.
const FIELDS: [usize; 29] = [
    2, 18, 4, 4, 1, 1, 2, 4, 1, 1, // header
    1, 1, 2, 4, 4, 2, 1, 4, // class
    1, 1, 4, 1, // medium object
    1, 1, // short object
    1, 1, 1, 4, // primitive array
    1, // end tag
];

/// Returns the missing bytes of the example when only its first `cut` bytes are there.
fn missing(cut: usize) -> u64 {
    let mut end = 0;
    let mut ends = FIELDS.iter().map(|width| {
        end += width;
        end
    });
    (ends.find(|end| cut < *end).unwrap() - cut) as u64
}

/// What the buffers hold before a call, to show what it changes.
const UNTOUCHED: u64 = 0xEEEE;

/// The example's rows, references and header. Names are places in the dump.
const ROWS: [[u64; ROW_LEN]; 4] = [
    [1, 0x1000, 0, 0, 0, 0, 0, 16, 0, 52, 1, 0, 38],
    [2, 0x1010, 0x1000, 0, 0, 0, 1, 0, 0, 0, 0, 0, 57],
    [2, 0x1020, 0x1000, 0, 0, 1, 0, 0, 0, 0, 0, 0, 64],
    [4, 0x1030, 0, 0, 0, 1, 0, 6, 3, 0, 0, 1, 66],
];
const REFS: [u64; 1] = [0x1020];
const HEADER: [u64; 6] = [32, 0, 1, 1, 32, 4];

const TEXT: &str = "// Version: Test
0x00001000 [0] CLS A
0x00000000
0x00001010 [16] OBJ A
0x00001000 0x00001020
0x00001020 [16] OBJ A
0x00001000
0x00001030 [24] OBJ [C
0x00000000
// Breakdown - Classes: 1, Objects: 2, ObjectArrays: 0, PrimitiveArrays: 1
// EOF:  Total 'Objects',Refs(null) : 4,1(0)
";

/// Returns the example's dump.
fn dump() -> Vec<u8> {
    let mut dump = b"\x00\x12portable heap dump".to_vec();
    dump.extend(b"\x00\x00\x00\x06\x00\x00\x00\x04\x01\x04\x00\x04Test\x02\x02");
    dump.extend(b"\x06\x40\x04\x00\x00\x00\x00\x10\x00\x00\x00\x00\x00\x01\x41\x00\x00\x00\x00");
    dump.extend(b"\x48\x04\x00\x00\x10\x00\x04\x80\x04\x24\x04\x03\x00\x00\x00\x06\x03");
    dump
}

/// Reads with capacity for some rows, compares the answer with a reply, its place and a count of rows, and checks that nothing
/// else changed. Returns the rows.
fn expect(dump: &[u8], capacity: usize, reply: Reply, place: u64, count: usize) -> Vec<u64> {
    let mut rows = vec![UNTOUCHED; capacity * ROW_LEN + ROW_LEN - 1];
    let mut refs = vec![UNTOUCHED; 3];
    let mut answer = [UNTOUCHED; 16];
    let returned = read_tables(dump, &mut rows, &mut refs, &mut answer);
    assert_eq!(returned, reply as u64);
    let ref_count = if count >= 2 { 1 } else { 0 };
    let start = [reply as u64, place, count as u64, ref_count as u64];
    let header = if dump.len() < 38 { [0; 6] } else { HEADER };
    assert_eq!(answer[..MISSING], [&start[..], &header[..]].concat());
    let missing = match reply {
        Reply::Cut => missing(dump.len()),
        _ => 0,
    };
    assert_eq!(answer[MISSING..], [missing, 0, 0, 0, 0, 0]);
    assert!(rows[count * ROW_LEN..]
        .iter()
        .chain(&refs[ref_count..])
        .all(|&n| n == UNTOUCHED));
    rows.truncate(count * ROW_LEN);
    rows
}

/// Every cut gives the reply for a cut and the rows before it, and bytes after the end change nothing: cases (a) to (f).
#[test]
fn cuts() {
    let dump = dump();
    assert_eq!(dump.len(), 74);
    for cut in 0..74 {
        let (place, count) = match cut {
            0..=37 => (0, 0),
            38..=56 => (38, 0),
            57..=63 => (57, 1),
            64..=65 => (64, 2),
            66..=72 => (66, 3),
            _ => (73, 4),
        };
        assert_eq!(
            expect(&dump[..cut], 4, Reply::Cut, place, count),
            ROWS[..count].concat()
        );
    }
    assert_eq!(expect(&dump, 4, Reply::Done, 74, 4), ROWS.concat());
    assert_eq!(
        expect(&[&dump[..], &[9, 3]].concat(), 5, Reply::Done, 74, 4),
        ROWS.concat()
    );
}

/// Too little capacity, and three bytes changed: cases (g) to (j).
#[test]
fn cases() {
    let dump = dump();
    assert_eq!(expect(&dump, 3, Reply::NoRow, 66, 3), ROWS[..3].concat());
    let with = |place: usize, byte| {
        let mut changed = dump.clone();
        changed[place] = byte;
        changed
    };
    expect(&with(64, 0xA0), 4, Reply::EmptySlot, 64, 2);
    assert_eq!(
        expect(&with(58, 0xFF), 4, Reply::Done, 74, 4)[ROW_LEN + 1],
        0x0FFC
    );
    expect(&with(40, 0x80), 4, Reply::OutOfRange, 38, 0);
}

/// The rows give the example's dump and text if the output is large enough, and nothing if it is one byte smaller. The size
/// queries return that size.
#[test]
fn written() {
    type Write = fn(&Tables, &mut [u8], &mut Answer) -> u64;
    type Size = fn(&Tables, &mut Answer) -> u64;
    let dump = dump();
    let rows = [&ROWS.concat()[..], &[1; ROW_LEN - 1]].concat();
    let tables = Tables {
        header: HEADER,
        rows: &rows,
        refs: &REFS,
        names: &dump,
    };
    let operations = [
        (write_size as Size, write as Write, &dump[..]),
        (text_size, text, TEXT.as_bytes()),
    ];
    let (done, no_output) = (Reply::Done as u64, Reply::NoOutput as u64);
    for (query, write, expected) in operations {
        let size = expected.len();
        let done_answer: Answer = std::array::from_fn(|at| match at {
            REPLY => done,
            PLACE => size as u64,
            _ => 0,
        });
        let mut answer = [UNTOUCHED; 16];
        assert_eq!(query(&tables, &mut answer), done);
        assert_eq!(answer, done_answer);
        let mut out = vec![0xEE; size + 1];
        let reply = write(&tables, &mut out[..size - 1], &mut answer);
        assert_eq!(reply, no_output);
        assert_eq!((answer[PLACE], &out), (0, &vec![0xEE; size + 1]));
        assert_eq!(write(&tables, &mut out, &mut answer), done);
        assert_eq!(answer, done_answer);
        assert_eq!((&out[..size], out[size]), (expected, 0xEE));
    }
}

/// Returns the text of the example with more object arrays, each given by its count of references and its true length.
fn text_with_arrays(arrays: &[(u64, u64)]) -> String {
    let (mut rows, mut refs) = (ROWS.concat(), REFS.to_vec());
    for &(count, length) in arrays {
        let first = refs.len() as u64;
        let mut row = [0; ROW_LEN];
        let start = [OBJECT_ARRAY, 0x2000, 0x1000, 0, 0, first, count, 9, length];
        row[..start.len()].copy_from_slice(&start);
        rows.extend(row);
        refs.extend(vec![0x1010; count as usize]);
    }
    let tables = Tables {
        header: HEADER,
        rows: &rows,
        refs: &refs,
        names: &dump(),
    };
    let (mut out, mut answer) = ([0; 1000], [UNTOUCHED; 16]);
    assert_eq!(text(&tables, &mut out, &mut answer), Reply::Done as u64);
    String::from_utf8_lossy(&out[..answer[PLACE] as usize]).into_owned()
}

/// An array of true length 5 with two references lists two, and adds 3 to the nulls and 5 to the total at the end of the text.
#[test]
fn nulls() {
    let tries: [(&[(u64, u64)], &str); 6] = [
        (&[], "4,1(0)"),
        (&[(2, 5)], "5,6(3)"),
        (&[(0, 0), (3, 3)], "6,4(0)"),
        (&[(0, 4)], "5,5(4)"),
        (&[(1, 2), (0, 7), (2, 2)], "7,12(8)"),
        (&[(0, 0x7FFF_FFFF); 3], "7,6442450942(6442450941)"),
    ];
    for (arrays, expected) in tries {
        let written = text_with_arrays(arrays);
        assert!(written.ends_with(&format!(" : {expected}\n")), "{written}");
        let last = arrays.last().map_or("0x00000000".into(), |(count, _)| {
            "0x00001000".to_string() + &" 0x00001010".repeat(*count as usize)
        });
        assert_eq!(written.lines().rev().nth(2), Some(&last[..]));
    }
}

/// Returns an entry of the example's list: class, mark, instances, bytes, references and waiting objects.
fn entry([class, mark, instances, bytes, refs, waiting]: [u64; 6]) -> Summary {
    Summary {
        class,
        mark,
        instances,
        bytes,
        refs,
        waiting,
    }
}

/// Reads a dump with a list of `capacity` entries, and returns the reply, how many rows were stored, and the entries in use.
fn summaries(dump: &[u8], capacity: usize) -> (u64, u64, Vec<Summary>) {
    let untouched = entry([UNTOUCHED; 6]);
    let (mut rows, mut refs) = ([0; 4 * ROW_LEN], [0; 1]);
    let (mut list, mut answer) = (vec![untouched; capacity], [UNTOUCHED; 16]);
    let reply = read(dump, &mut rows, &mut refs, &mut list, &mut answer);
    let used = answer[CLASSES] as usize;
    assert!(list[used..].iter().all(|entry| *entry == untouched));
    list.truncate(used);
    (reply, answer[ROW_COUNT], list)
}

/// The example's list: two objects of class A and a char array. A class row that comes last or never, and a full list.
#[test]
fn class_summaries() {
    let dump = dump();
    let (done, cut, no_entry) = (Reply::Done as u64, Reply::Cut as u64, Reply::NoEntry as u64);
    let (objects, array) = ([0x1000, 0, 2, 32, 1, 0], [1, 1, 1, 24, 0, 0]);
    let both = vec![entry(objects), entry(array)];
    assert_eq!(summaries(&dump, 3), (done, 4, both.clone()));
    assert_eq!(summaries(&dump, 2), (done, 4, both));
    assert_eq!(summaries(&dump, 1), (no_entry, 3, vec![entry(objects)]));
    assert_eq!(summaries(&dump, 0), (no_entry, 1, vec![]));
    assert_eq!(summaries(&dump[..57], 0), (cut, 1, vec![]));
    let first = vec![entry([0x1000, 0, 1, 16, 1, 0])];
    assert_eq!(summaries(&dump[..64], 2), (cut, 2, first));
    let header = &dump[..38];
    let object = b"\x40\x04\x00\x00\x10\x00";
    let class = b"\x06\x40\x03\xFC\x00\x00\x00\x10\x00\x00\x00\x00\x00\x01\x41\x00\x00\x00\x00";
    let late = [header, object, class].concat();
    let before = vec![entry([0x1000, 0, 1, 0, 0, 1])];
    assert_eq!(summaries(&late[..late.len() - 1], 2), (cut, 1, before));
    let after = vec![entry([0x1000, 0, 1, 16, 0, 0])];
    assert_eq!(summaries(&late, 2), (cut, 2, after));
}
