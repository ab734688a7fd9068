//! Compares the proved library with the plain implementation. Each operation is called on both with equal buffers; the answers
//! and all contents of the buffers must be equal, including what must stay unchanged. A size query is also compared with the
//! write that follows it.

use crate::tables::*;
use phd_host::{library, plain, reply};
use std::panic::{catch_unwind, AssertUnwindSafe};

type ReadFn = fn(&[u8], &mut [u64], &mut [u64], &mut Answer) -> u64;
pub type WriteFn = fn(&Tables, &mut [u8], &mut Answer) -> u64;
type SizeFn = fn(&Tables, &mut Answer) -> u64;

/// How many numbers of an answer a read without a list uses, and how many any other operation but a read.
const READ_USES: usize = answer::CLASSES;
const WRITE_USES: usize = answer::PLACE + 1;

/// Writing a dump or a text, and its size query, on both sides.
pub struct Operation {
    pub name: &'static str,
    pub library: WriteFn,
    pub plain: WriteFn,
    pub size_name: &'static str,
    pub library_size: SizeFn,
    pub plain_size: SizeFn,
}

pub const WRITE: Operation = Operation {
    name: "write",
    library: library::write,
    plain: plain::write,
    size_name: "write size",
    library_size: library::write_size,
    plain_size: plain::write_size,
};

pub const TEXT: Operation = Operation {
    name: "text",
    library: library::text,
    plain: plain::text,
    size_name: "text size",
    library_size: library::text_size,
    plain_size: plain::text_size,
};

/// What an operation returned, and the contents of every buffer that it could change.
pub struct Outcome {
    pub reply: u64,
    pub answer: Answer,
    /// The tables of rows and of references of a read, and the numbers of its list of class summaries if it has one.
    pub tables: Vec<Vec<u64>>,
    pub out: Vec<u8>,
}

impl Outcome {
    pub fn place(&self) -> usize {
        self.answer[answer::PLACE] as usize
    }

    /// Returns the missing bytes of a cut dump.
    pub fn missing(&self) -> usize {
        self.answer[answer::MISSING] as usize
    }

    /// Returns how many rows were stored.
    pub fn row_count(&self) -> usize {
        self.answer[answer::ROWS] as usize
    }

    /// Returns how many references were stored.
    pub fn ref_count(&self) -> usize {
        self.answer[answer::REFS] as usize
    }

    /// Returns the bytes that were written.
    pub fn written(&self) -> &[u8] {
        &self.out[..self.place()]
    }
}

/// Returns the contents of a buffer of numbers before a call.
pub fn pattern(salt: u64, length: usize) -> Vec<u64> {
    let step = |at: usize| salt.wrapping_add((at as u64).wrapping_mul(0x9E37_79B9_7F4A_7C15));
    (0..length).map(step).collect()
}

/// Returns the contents of a buffer of bytes before a call.
pub fn byte_pattern(salt: u64, length: usize) -> Vec<u8> {
    let step = |at: usize| (salt as u8).wrapping_add((at as u8).wrapping_mul(37));
    (0..length).map(step).collect()
}

/// Returns the answer before a call; none of its numbers is 0.
pub fn answer_pattern(salt: u64) -> Answer {
    std::array::from_fn(|at| salt.rotate_left(at as u32) | 1)
}

/// Reads on one side. Both capacities count numbers.
pub fn read_by(read: ReadFn, dump: &[u8], capacities: (usize, usize), salt: u64) -> Outcome {
    let mut rows = pattern(salt, capacities.0);
    let mut refs = pattern(!salt, capacities.1);
    let mut answer = answer_pattern(salt);
    let reply = read(dump, &mut rows, &mut refs, &mut answer);
    Outcome {
        reply,
        answer,
        tables: vec![rows, refs],
        out: Vec::new(),
    }
}

/// Writes a dump or a text on one side.
pub fn write_by(write: WriteFn, tables: &OwnedTables, capacity: usize, salt: u64) -> Outcome {
    let mut out = byte_pattern(salt, capacity);
    let mut answer = answer_pattern(salt);
    let reply = write(&tables.borrow(), &mut out, &mut answer);
    Outcome {
        reply,
        answer,
        tables: Vec::new(),
        out,
    }
}

/// Makes a size query on one side.
fn query_by(query: SizeFn, tables: &OwnedTables, salt: u64) -> Outcome {
    let mut answer = answer_pattern(salt);
    let reply = query(&tables.borrow(), &mut answer);
    Outcome {
        reply,
        answer,
        tables: Vec::new(),
        out: Vec::new(),
    }
}

/// Reads a dump on both sides, and returns the library's outcome if they agree.
pub fn read(dump: &[u8], capacities: (usize, usize), salt: u64) -> Result<Outcome, String> {
    let library = read_by(library::read_tables, dump, capacities, salt);
    let plain = catch_panic(|| read_by(plain::read_tables, dump, capacities, salt));
    let checked = plain.and_then(|plain| {
        check_equal(&library, &plain)?;
        check_read(&library, dump, salt)
    });
    let named = |error| format!("read with capacities {capacities:?}: {error}");
    match checked {
        Ok(()) => Ok(library),
        Err(error) => Err(with_dump(&named(error), dump)),
    }
}

/// Writes a dump or a text on both sides, and returns the library's outcome if they agree.
pub fn write(
    operation: &Operation,
    tables: &OwnedTables,
    capacity: usize,
    salt: u64,
) -> Result<Outcome, String> {
    let library = write_by(operation.library, tables, capacity, salt);
    let plain = catch_panic(|| write_by(operation.plain, tables, capacity, salt));
    let checked = plain.and_then(|plain| {
        check_equal(&library, &plain)?;
        check_write(&library, salt)
    });
    let named = |error| format!("{} with capacity {capacity}: {error}", operation.name);
    match checked {
        Ok(()) => Ok(library),
        Err(error) => Err(with_tables(&named(error), tables)),
    }
}

/// Makes a size query on both sides, and returns the library's outcome if they agree.
pub fn query_size(
    operation: &Operation,
    tables: &OwnedTables,
    salt: u64,
) -> Result<Outcome, String> {
    let library = query_by(operation.library_size, tables, salt);
    let plain = catch_panic(|| query_by(operation.plain_size, tables, salt));
    let checked = plain.and_then(|plain| {
        check_equal(&library, &plain)?;
        check_answer(&library, WRITE_USES)
    });
    let named = |error| format!("{}: {error}", operation.size_name);
    match checked {
        Ok(()) => Ok(library),
        Err(error) => Err(with_tables(&named(error), tables)),
    }
}

/// Checks that a write agrees with its size query: the same refusal, or the same size if the capacity is large enough and
/// `reply::NO_OUTPUT` otherwise.
pub fn check_query(query: &Outcome, write: &Outcome, capacity: usize) -> Result<(), String> {
    let expected = match query.reply {
        reply::DONE if capacity < query.place() => [reply::NO_OUTPUT, 0],
        _ => [query.reply, query.place() as u64],
    };
    let actual = &write.answer[..WRITE_USES];
    if actual == expected {
        return Ok(());
    }
    Err(format!(
        "with capacity {capacity}: {actual:?}, expected {expected:?}"
    ))
}

/// Returns an error message with the dump.
pub fn with_dump(error: &str, dump: &[u8]) -> String {
    format!("{error}\ndump {}", hex(dump))
}

/// Returns an error message with the tables.
pub fn with_tables(error: &str, tables: &OwnedTables) -> String {
    format!("{error}\n{}", tables.show())
}

/// Calls the plain implementation, and returns a panic as an error.
pub fn catch_panic(call: impl FnOnce() -> Outcome) -> Result<Outcome, String> {
    catch_unwind(AssertUnwindSafe(call)).map_err(|_| "plain panicked".to_string())
}

/// Checks that both sides returned the same and left the same in every buffer.
pub fn check_equal(library: &Outcome, plain: &Outcome) -> Result<(), String> {
    if library.reply != plain.reply {
        let places = (library.place(), plain.place());
        let replies = (library.reply, plain.reply);
        return Err(format!(
            "library and plain: replies {replies:?}, places {places:?}"
        ));
    }
    check_numbers("answer", &library.answer, &plain.answer)?;
    for (at, (left, right)) in library.tables.iter().zip(&plain.tables).enumerate() {
        check_numbers(&format!("table {at}"), left, right)?;
    }
    match first_difference(&library.out, &plain.out) {
        None => Ok(()),
        Some(at) => {
            let part = |out: &[u8]| hex(&out[at..(at + 16).min(out.len())]);
            let (left, right) = (part(&library.out), part(&plain.out));
            Err(format!(
                "library and plain: output at {at}, {left} and {right}"
            ))
        }
    }
}

/// Checks that both sides have the same numbers.
fn check_numbers(what: &str, left: &[u64], right: &[u64]) -> Result<(), String> {
    match first_difference(left, right) {
        None => Ok(()),
        Some(at) => {
            let numbers = (left.get(at), right.get(at));
            Err(format!("library and plain: {what} at {at}, {numbers:X?}"))
        }
    }
}

/// Returns the first index at which two slices differ, or the end of the shorter one.
fn first_difference<T: PartialEq>(left: &[T], right: &[T]) -> Option<usize> {
    if left == right {
        return None;
    }
    let at = left
        .iter()
        .zip(right)
        .position(|(left, right)| left != right);
    Some(at.unwrap_or(left.len().min(right.len())))
}

/// Checks what is true of every read without a list of class summaries: the unused numbers of the answer are 0, and its tables
/// are right.
pub fn check_read(read: &Outcome, dump: &[u8], salt: u64) -> Result<(), String> {
    check_answer(read, READ_USES)?;
    check_tables(read, dump, salt)
}

/// Checks what is true of every read: bytes are missing if and only if the dump is cut, nothing after the stored rows and references
/// has changed, the dump has enough bytes for what was stored, and the offsets of the rows are right.
pub fn check_tables(read: &Outcome, dump: &[u8], salt: u64) -> Result<(), String> {
    if (read.missing() != 0) != (read.reply == reply::CUT) {
        return Err(format!("reply {}, missing {}", read.reply, read.missing()));
    }
    let (rows, refs) = (&read.tables[0], &read.tables[1]);
    let (row_end, ref_end) = (read.row_count() * ROW_LEN, read.ref_count());
    if row_end > rows.len() || ref_end > refs.len() {
        return Err("more counted than the capacity".to_string());
    }
    if rows[row_end..] != pattern(salt, rows.len())[row_end..] {
        return Err("a row after the stored ones has changed".to_string());
    }
    if refs[ref_end..] != pattern(!salt, refs.len())[ref_end..] {
        return Err("a reference after the stored ones has changed".to_string());
    }
    if 2 * (row_end / ROW_LEN) + ref_end > dump.len().saturating_sub(31) {
        return Err("more stored than the dump has bytes for".to_string());
    }
    let end = read.place() - usize::from(read.reply == reply::DONE);
    check_offsets(&rows[..row_end], end as u64, dump)
}

/// Checks that the offset of each row is that of a record's tag, and that each record extends to the next, the last to `end`,
/// with a possible number of bytes.
fn check_offsets(rows: &[u64], end: u64, dump: &[u8]) -> Result<(), String> {
    let rows: Vec<&[u64]> = rows.chunks_exact(ROW_LEN).collect();
    let offsets = rows.iter().map(|row| row[OFFSET]);
    let ends = offsets.skip(1).chain([end]);
    for (index, (row, end)) in rows.iter().zip(ends).enumerate() {
        let offset = row[OFFSET];
        let tag = dump.get(offset as usize);
        let begins = tag.is_some_and(|tag| matches!(tag, 4 | 6..=8 | 0x20..));
        let least = offset + 2 + row[COUNT];
        let most = offset + 34 + row[NAME_LENGTH] + 8 * row[COUNT];
        if !begins || !(least..=most).contains(&end) {
            return Err(format!("row {index} has its record from {offset} to {end}"));
        }
    }
    Ok(())
}

/// Checks what is true of every write and text: the unused numbers of the answer are 0, and nothing after the written bytes, or
/// nothing at all if it was refused, has changed.
fn check_write(write: &Outcome, salt: u64) -> Result<(), String> {
    check_answer(write, WRITE_USES)?;
    let end = match write.reply {
        reply::DONE => write.place(),
        _ => 0,
    };
    if end > write.out.len() {
        return Err("more written than the capacity".to_string());
    }
    if write.out[end..] != byte_pattern(salt, write.out.len())[end..] {
        return Err("output after the written bytes has changed".to_string());
    }
    Ok(())
}

/// Checks that the answer begins with the reply that was returned, and is 0 after its first `used` numbers.
pub fn check_answer(outcome: &Outcome, used: usize) -> Result<(), String> {
    if outcome.answer[answer::REPLY] != outcome.reply {
        return Err("the answer has another reply".to_string());
    }
    if outcome.answer[used..].iter().any(|number| *number != 0) {
        return Err(format!("a number should be 0: {:X?}", outcome.answer));
    }
    Ok(())
}
