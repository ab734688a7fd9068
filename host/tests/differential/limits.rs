//! Tests the size limits, which random cases cannot reach: dumps of more than 1,073,741,824 bytes are read, written and queried.

use crate::compare::{self, check_equal, Outcome, WriteFn, TEXT, WRITE};
use crate::summaries::{self, Capacity};
use crate::tables::*;
use phd_host::{library, plain, reply};

const LIMIT: usize = 1_073_741_824;

/// A whole dump without records: W is 32, no VM string.
const EMPTY: &[u8] = b"\x00\x12portable heap dump\x00\x00\x00\x06\x00\x00\x00\x00\x01\x02\x02\x03";

/// A dump that is zeros after its first bytes, as long as the limit and one byte longer, is read on both sides.
#[test]
fn dump_over_the_limit() {
    let mut dump = vec![0; LIMIT + 1];
    for (opening, within) in [(&b""[..], reply::NO_DUMP), (EMPTY, reply::DONE)] {
        dump[..opening.len()].copy_from_slice(opening);
        for (size, reply) in [(LIMIT, within), (LIMIT + 1, reply::OVER_LIMIT)] {
            let read = |read| compare::read_by(read, &dump[..size], (ROW_LEN, 1), 7);
            let (library, plain) = (read(library::read_tables), read(plain::read_tables));
            assert_eq!(library.reply, reply, "{size} bytes");
            let place = match reply {
                reply::DONE => EMPTY.len(),
                _ => 0,
            };
            assert_eq!(library.place(), place, "{size} bytes");
            compare::check_read(&library, &dump[..size], 7).expect("a valid read");
            check_equal(&library, &plain).expect("both sides are equal");
            let capacity = Capacity {
                rows: ROW_LEN,
                refs: 1,
                classes: 1,
            };
            let with_list = summaries::read_both(&dump[..size], capacity, 7);
            assert_eq!(with_list.expect("both sides are equal").reply, reply);
        }
    }
}

/// Returns class rows that are a dump of `size` bytes. They share one name of 65,535 bytes and take 65,552 bytes each, except the
/// last.
fn rows_of(size: usize) -> OwnedTables {
    let (each, frame) = (65_552, EMPTY.len());
    let many = (size - frame) / each;
    let mut tables = OwnedTables {
        header: [32, 0, 0, 0, 0, 0],
        rows: Vec::new(),
        refs: Vec::new(),
        names: vec![b'n'; 65_535],
    };
    let rest = size - frame - many * each;
    for bytes in std::iter::repeat_n(each, many).chain([rest]) {
        let mut row = [0; ROW_LEN];
        row[KIND] = kind::CLASS;
        row[NAME_LENGTH] = bytes as u64 - 17;
        tables.rows.extend(row);
    }
    tables
}

/// Writes into a new buffer of zeros, which take no memory until they are written.
fn write_to_zeros(write: WriteFn, tables: &OwnedTables, capacity: usize) -> Outcome {
    let mut out = vec![0; capacity];
    let mut answer = [7; 16];
    let reply = write(&tables.borrow(), &mut out, &mut answer);
    Outcome {
        reply,
        answer,
        tables: Vec::new(),
        out,
    }
}

/// A size query needs no memory for the dump or the text. A text has no limit.
#[test]
fn sizes_at_the_limit() {
    for (size, write) in [
        (LIMIT, [reply::DONE, LIMIT as u64]),
        (LIMIT + 1, [reply::NO_OUTPUT, 0]),
    ] {
        let tables = rows_of(size);
        let query = compare::query_size(&WRITE, &tables, 7).expect("both sides are equal");
        assert_eq!(query.answer[..=answer::PLACE], write, "{size} bytes");
        let names: u64 = tables
            .rows
            .chunks_exact(ROW_LEN)
            .map(|row| row[NAME_LENGTH])
            .sum();
        let lines = "0x00000000 [0] CLS \n0x00000000\n".len() as u64;
        let count = tables.count() as u64;
        let frame = format!(
            "// Version: \n\
             // Breakdown - Classes: {count}, Objects: 0, ObjectArrays: 0, PrimitiveArrays: 0\n\
             // EOF:  Total 'Objects',Refs(null) : {count},0(0)\n"
        );
        let text = names + count * lines + frame.len() as u64;
        let query = compare::query_size(&TEXT, &tables, 7).expect("both sides are equal");
        assert_eq!(
            query.answer[..=answer::PLACE],
            [reply::DONE, text],
            "{size} bytes"
        );
        assert!(text > LIMIT as u64);
    }
}

#[test]
fn written_over_the_limit() {
    let tables = rows_of(LIMIT + 1);
    for (side, write) in [
        ("library", library::write as WriteFn),
        ("plain", plain::write),
    ] {
        let write = write_to_zeros(write, &tables, LIMIT + 9);
        let answer = (write.reply, write.place());
        assert_eq!(answer, (reply::NO_OUTPUT, 0), "{side}");
        assert_eq!(write.answer[answer::ROWS..], [0; 14], "{side}");
        assert!(write.out.iter().all(|byte| *byte == 0), "{side}");
    }
}

#[test]
#[ignore = "writes a dump of 1 GiB on each side"]
fn written_to_the_limit() {
    let tables = rows_of(LIMIT);
    let library = write_to_zeros(library::write, &tables, LIMIT + 9);
    assert_eq!((library.reply, library.place()), (reply::DONE, LIMIT));
    let plain = write_to_zeros(plain::write, &tables, LIMIT + 9);
    check_equal(&library, &plain).expect("both sides are equal");
    let read = compare::read(&library.out[..LIMIT], (tables.rows.len(), 0), 7);
    let read = read.expect("both sides are equal");
    assert_eq!((read.reply, read.place()), (reply::DONE, LIMIT));
}

#[test]
#[ignore = "reserves 8 GiB of zeros that are not touched"]
fn refs_over_the_limit() {
    for (count, reply) in [(1 << 30, reply::DONE), ((1 << 30) + 1, reply::BAD_HEADER)] {
        let tables = OwnedTables {
            header: [32, 0, 0, 0, 0, 0],
            rows: Vec::new(),
            refs: vec![0; count],
            names: Vec::new(),
        };
        for operation in [&WRITE, &TEXT] {
            let library = compare::write_by(operation.library, &tables, 300, 7);
            let plain = compare::write_by(operation.plain, &tables, 300, 7);
            let name = operation.name;
            assert_eq!(library.reply, reply, "{name} of {count} references");
            check_equal(&library, &plain).expect("both sides are equal");
            let query = compare::query_size(operation, &tables, 7).expect("both sides are equal");
            compare::check_query(&query, &library, 300).expect("the size query agrees");
        }
    }
}
