//! Reads with a list of class summaries: calls them on both sides with equal buffers, and compares the list with its definition,
//! which is written here once more, straight from the rows.

use crate::compare::{
    answer_pattern, catch_panic, check_answer, check_equal, check_tables, pattern, with_dump,
    Outcome,
};
use crate::tables::*;
use phd_host::summary::{mark, Summary};
use phd_host::{library, plain, reply};

type ReadFn = fn(&[u8], &mut [u64], &mut [u64], &mut [Summary], &mut Answer) -> u64;

/// How many numbers make an entry.
pub const ENTRY_LEN: usize = 6;

/// The capacities of a read: numbers of the table of rows, references, and entries of the list.
#[derive(Clone, Copy, Debug, PartialEq)]
pub struct Capacity {
    pub rows: usize,
    pub refs: usize,
    pub classes: usize,
}

/// Returns the entry with these six numbers.
fn entry(numbers: &[u64]) -> Summary {
    Summary {
        class: numbers[0],
        mark: numbers[1],
        instances: numbers[2],
        bytes: numbers[3],
        refs: numbers[4],
        waiting: numbers[5],
    }
}

/// Returns the six numbers of an entry.
fn numbers(entry: &Summary) -> [u64; ENTRY_LEN] {
    [
        entry.class,
        entry.mark,
        entry.instances,
        entry.bytes,
        entry.refs,
        entry.waiting,
    ]
}

/// Returns the entries that a read counted.
pub fn list_of(read: &Outcome) -> Vec<Summary> {
    let used = read.answer[answer::CLASSES] as usize * ENTRY_LEN;
    read.tables[2][..used]
        .chunks_exact(ENTRY_LEN)
        .map(entry)
        .collect()
}

/// Returns the rows that a read stored.
pub fn rows_of(read: &Outcome) -> &[u64] {
    &read.tables[0][..read.row_count() * ROW_LEN]
}

/// Returns the contents of the list before a call, as numbers.
fn list_pattern(salt: u64, entries: usize) -> Vec<u64> {
    pattern(salt.rotate_left(17), entries * ENTRY_LEN)
}

/// Reads on one side.
pub fn read_by(read: ReadFn, dump: &[u8], capacity: Capacity, salt: u64) -> Outcome {
    let mut rows = pattern(salt, capacity.rows);
    let mut refs = pattern(!salt, capacity.refs);
    let list = list_pattern(salt, capacity.classes);
    let mut list: Vec<Summary> = list.chunks_exact(ENTRY_LEN).map(entry).collect();
    let mut answer = answer_pattern(salt);
    let reply = read(dump, &mut rows, &mut refs, &mut list, &mut answer);
    let list = list.iter().flat_map(numbers).collect();
    Outcome {
        reply,
        answer,
        tables: vec![rows, refs, list],
        out: Vec::new(),
    }
}

/// Reads a dump on both sides, and returns the library's outcome if they agree. Compares the list with its definition too, which
/// takes long if there are many rows.
pub fn read(dump: &[u8], capacity: Capacity, salt: u64) -> Result<Outcome, String> {
    let read = read_both(dump, capacity, salt).and_then(|read| {
        check_definition(&read)?;
        Ok(read)
    });
    read.map_err(|error| with_dump(&format!("read with {capacity:?}: {error}"), dump))
}

/// Reads a dump on both sides, and returns the library's outcome if they agree. The error does not show the dump.
pub fn read_both(dump: &[u8], capacity: Capacity, salt: u64) -> Result<Outcome, String> {
    let library = read_by(library::read, dump, capacity, salt);
    let plain = catch_panic(|| read_by(plain::read, dump, capacity, salt))?;
    check_equal(&library, &plain)?;
    check_list_read(&library, dump, capacity, salt)?;
    Ok(library)
}

/// Checks what is true of every read with a list: the unused numbers of the answer are 0, the tables are right, nothing after the
/// entries in use has changed, the totals are those of the rows, and the tables are those of a read without a list.
pub fn check_list_read(
    read: &Outcome,
    dump: &[u8],
    capacity: Capacity,
    salt: u64,
) -> Result<(), String> {
    check_answer(read, answer::UNUSED)?;
    check_tables(read, dump, salt)?;
    let used = read.answer[answer::CLASSES] as usize;
    if used > capacity.classes {
        return Err(format!("{used} entries, capacity {}", capacity.classes));
    }
    let end = used * ENTRY_LEN;
    if read.tables[2][end..] != list_pattern(salt, capacity.classes)[end..] {
        return Err("an entry after those in use has changed".to_string());
    }
    check_totals(read)?;
    check_without_list(read, dump, capacity, salt)
}

/// Checks that the entries have the instances and references of all rows but the class rows.
fn check_totals(read: &Outcome) -> Result<(), String> {
    let rows = rows_of(read).chunks_exact(ROW_LEN);
    let (mut instances, mut refs) = (0, 0);
    for row in rows.filter(|row| row[KIND] != kind::CLASS) {
        instances += 1;
        refs += row[COUNT];
    }
    let list = list_of(read);
    let totals: (u64, u64) = (
        list.iter().map(|entry| entry.instances).sum(),
        list.iter().map(|entry| entry.refs).sum(),
    );
    if totals != (instances, refs) {
        let expected = (instances, refs);
        return Err(format!(
            "instances and references {totals:?}, expected {expected:?}"
        ));
    }
    Ok(())
}

/// Checks a read with the library's read without a list, in tables of the same capacity. Both give the same answer and tables,
/// unless the list is full: then the read stops before the first record that needs a new entry.
fn check_without_list(
    read: &Outcome,
    dump: &[u8],
    capacity: Capacity,
    salt: u64,
) -> Result<(), String> {
    let mut tables = (pattern(salt, capacity.rows), pattern(!salt, capacity.refs));
    let mut answer = answer_pattern(salt);
    library::read_tables(dump, &mut tables.0, &mut tables.1, &mut answer);
    if read.reply != reply::NO_ENTRY {
        let mut expected = read.answer;
        expected[answer::CLASSES] = 0;
        if answer != expected || tables.0 != read.tables[0] || tables.1 != read.tables[1] {
            return Err(format!("without a list: {answer:X?}"));
        }
        return Ok(());
    }
    let (rows, refs) = (read.row_count() * ROW_LEN, read.ref_count());
    let next = tables.0[..answer[answer::ROWS] as usize * ROW_LEN].get(rows..rows + ROW_LEN);
    let next = next.ok_or("the list is full, and no row follows")?;
    if tables.0[..rows] != *rows_of(read) || tables.1[..refs] != read.tables[1][..refs] {
        return Err("the list is full, and the tables are no prefix".to_string());
    }
    let is_full = read.answer[answer::CLASSES] as usize == capacity.classes;
    let is_new = key_of(next).is_some_and(|key| !list_of(read).iter().any(|at| key == key_in(at)));
    if !is_full || !is_new || next[OFFSET] != read.place() as u64 {
        return Err("the list is full, but the next row is another".to_string());
    }
    Ok(())
}

/// Returns the class word or primitive type of a row with its mark, or nothing for a class row.
pub fn key_of(row: &[u64]) -> Option<(u64, u64)> {
    match row[KIND] {
        kind::CLASS => None,
        kind::PRIMITIVE_ARRAY => Some((row[TYPE], mark::PRIMITIVE_TYPE)),
        _ => Some((row[CLASS], mark::CLASS_WORD)),
    }
}

/// Returns the class word or primitive type of an entry with its mark.
fn key_in(entry: &Summary) -> (u64, u64) {
    (entry.class, entry.mark)
}

/// Returns the class words and primitive types of rows, in order of first use.
pub fn keys_of(rows: &[u64]) -> Vec<(u64, u64)> {
    let mut keys = Vec::new();
    for key in rows.chunks_exact(ROW_LEN).filter_map(key_of) {
        if !keys.contains(&key) {
            keys.push(key);
        }
    }
    keys
}

/// Returns the instance size of the first class row with this address.
fn class_size(rows: &[u64], word: u64) -> Option<u64> {
    let mut rows = rows.chunks_exact(ROW_LEN);
    let class = rows.find(|row| row[KIND] == kind::CLASS && row[ADDRESS] == word);
    class.map(|class| class[SIZE])
}

/// Returns the summaries of rows, by their definition.
fn summaries_of(rows: &[u64]) -> Vec<Summary> {
    let summary = |(class, mark)| {
        let mut summary = Summary {
            class,
            mark,
            ..Summary::default()
        };
        let size = class_size(rows, class);
        for row in rows.chunks_exact(ROW_LEN) {
            if key_of(row) != Some((class, mark)) {
                continue;
            }
            summary.instances += 1;
            summary.refs += row[COUNT];
            match (row[KIND], size) {
                (kind::OBJECT, Some(size)) => summary.bytes += size,
                (kind::OBJECT, None) => summary.waiting += 1,
                _ => summary.bytes += 4 * row[SIZE],
            }
        }
        summary
    };
    keys_of(rows).into_iter().map(summary).collect()
}

/// Checks that the list has the summaries of the rows that were stored.
pub fn check_definition(read: &Outcome) -> Result<(), String> {
    let (actual, expected) = (list_of(read), summaries_of(rows_of(read)));
    if actual == expected {
        return Ok(());
    }
    Err(format!("the list is {actual:X?}, expected {expected:X?}"))
}

/// Returns the sum of the bytes in a text that the plain implementation writes of what was read, or nothing if it is refused.
pub fn text_bytes(read: &Outcome, dump: &[u8]) -> Option<u64> {
    let tables = OwnedTables::of_read(dump, &read.answer, &read.tables[0], &read.tables[1]);
    let mut out = vec![0; tables.text_bound()];
    let mut answer = [0; 16];
    if plain::text(&tables.borrow(), &mut out, &mut answer) != reply::DONE {
        return None;
    }
    let text = String::from_utf8_lossy(&out[..answer[answer::PLACE] as usize]);
    let sizes = text.lines().filter_map(|line| {
        let (_, rest) = line.strip_prefix("0x")?.split_once(" [")?;
        rest.split_once(']')?.0.parse::<u64>().ok()
    });
    Some(sizes.sum())
}

/// Returns a row with these numbers.
fn row(kind: u64, address: u64, class: u64, count: u64, size: u64, primitive: u64) -> Row {
    let mut row = [0; ROW_LEN];
    (row[KIND], row[ADDRESS], row[CLASS]) = (kind, address, class);
    (row[COUNT], row[SIZE], row[TYPE]) = (count, size, primitive);
    row
}

/// The definition above, on rows with a class row that comes late, two of them, none, and a class word like a primitive type.
#[test]
fn the_definition() {
    let rows = [
        row(kind::OBJECT, 100, 4, 2, 0, 0),
        row(kind::PRIMITIVE_ARRAY, 104, 0, 0, 5, 4),
        row(kind::OBJECT_ARRAY, 108, 4, 3, 7, 0),
        row(kind::OBJECT, 112, 8, 0, 0, 0),
        row(kind::CLASS, 4, 8, 9, 16, 0),
        row(kind::CLASS, 4, 8, 9, 24, 0),
        row(kind::OBJECT, 116, 4, 1, 0, 0),
    ];
    let list: Vec<_> = summaries_of(&rows.concat()).iter().map(numbers).collect();
    let expected = [
        [4, mark::CLASS_WORD, 3, 16 + 28 + 16, 6, 0],
        [4, mark::PRIMITIVE_TYPE, 1, 20, 0, 0],
        [8, mark::CLASS_WORD, 1, 0, 0, 1],
    ];
    assert_eq!(list, expected);
}
