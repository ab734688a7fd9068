//! Checks that a dump is read back as the tables that were encoded. Records are the same if all numbers are equal, but names are
//! compared as bytes and references as lists, and offsets are not compared.

use crate::compare::Outcome;
use crate::encode::Encoded;
use crate::tables::*;
use phd_host::reply;

/// Checks that a read of a whole dump gave exactly these records and this header.
pub fn check_whole(tables: &OwnedTables, dump: &[u8], read: &Outcome) -> Result<(), String> {
    if read.reply != reply::DONE || read.place() > dump.len() {
        return Err(format!("reply {} at {}", read.reply, read.place()));
    }
    check_records(tables, dump, read)
}

/// Checks that a read gave exactly these records and this header.
pub fn check_records(tables: &OwnedTables, dump: &[u8], read: &Outcome) -> Result<(), String> {
    let got = OwnedTables::of_read(dump, &read.answer, &read.tables[0], &read.tables[1]);
    let numbers = |tables: &OwnedTables| {
        let flag = |at: usize| u64::from(tables.header[at] != 0);
        let [hashed, openj9, vm] =
            [header::ALL_HASHED, header::OPENJ9, header::VM_PRESENT].map(flag);
        [tables.header[header::BITS], hashed, openj9, vm]
    };
    if numbers(&got) != numbers(tables) || got.vm() != tables.vm() {
        return Err(format!("another header: {:X?}", got.header));
    }
    if got.count() != tables.count() {
        let (got, expected) = (got.count(), tables.count());
        return Err(format!("{got} rows, expected {expected}"));
    }
    for index in 0..got.count() {
        let row = got.row(index);
        if !is_same_row(tables, index, row, &got.refs, dump) {
            return Err(format!("row {index} is read as {row:X?}"));
        }
    }
    let owned = (0..got.count())
        .map(|index| got.row(index)[COUNT])
        .sum::<u64>();
    if owned != read.ref_count() as u64 {
        let got = read.ref_count();
        return Err(format!("{got} references, expected {owned}"));
    }
    Ok(())
}

/// Returns whether a row that was read from a dump is the same record as a good row. `refs` are all references that were read.
pub fn is_same_row(
    tables: &OwnedTables,
    index: usize,
    row: &[u64],
    refs: &[u64],
    dump: &[u8],
) -> bool {
    let expected = tables.row(index);
    let part = |from: u64, count: u64| from as usize..(from + count) as usize;
    let named = || dump[part(row[NAME_PLACE], row[NAME_LENGTH])] == *tables.name_of(index);
    let numbers = (0..ROW_LEN).all(|at| row[at] == expected[at] || POSITIONS.contains(&at));
    numbers
        && (row[KIND] != kind::CLASS || named())
        && refs[part(row[FIRST], row[COUNT])] == *tables.refs_of(index)
}

/// Checks that a read gave the places that the encoder recorded.
pub fn check_places(encoded: &Encoded, read: &Outcome) -> Result<(), String> {
    if read.place() != encoded.end() || read.answer[answer::VM_PLACE] != encoded.vm {
        return Err(format!("other places: {:X?}", read.answer));
    }
    for (row, name) in read.tables[0].chunks_exact(ROW_LEN).zip(&encoded.names) {
        if row[NAME_PLACE] != *name {
            return Err(format!("a name at {name} is read as {row:X?}"));
        }
    }
    check_offsets(encoded, read)
}

/// Checks that each row that was read has the offset of its record.
pub fn check_offsets(encoded: &Encoded, read: &Outcome) -> Result<(), String> {
    let rows = read.tables[0].chunks_exact(ROW_LEN);
    for (row, start) in rows.take(read.row_count()).zip(&encoded.starts) {
        if row[OFFSET] != *start as u64 {
            return Err(format!("a record at {start} is read as {row:X?}"));
        }
    }
    Ok(())
}
