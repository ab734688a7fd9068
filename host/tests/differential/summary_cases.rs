//! Compares reads with a list of class summaries on random cases: lists of every length, buffers that are full at the same record,
//! cuts at every byte, and damaged dumps.

use crate::compare::{with_dump, Outcome};
use crate::coverage::READ_REPLIES;
use crate::cuts::check_prefix;
use crate::damage;
use crate::encode;
use crate::entry_cases::{count_entries, ENTRIES};
use crate::good;
use crate::run::{run, Case, Kind};
use crate::summaries::{
    check_definition, check_list_read, key_of, keys_of, list_of, read, read_by, rows_of,
    text_bytes, Capacity,
};
use crate::summary_tables;
use crate::tables::*;
use phd_host::{library, reply};

/// How many cases run, and how often each reply and each case must occur at least.
const CASES: u64 = 120_000;
const LEAST: u64 = 50;

const KINDS: [Kind; 6] = [
    Kind::new("lists of every length", 25, every_length),
    Kind::new("buffers full at one record", 20, full_buffers),
    Kind::new("cuts at every byte", 5, every_cut),
    Kind::new("two cuts", 15, two_cuts),
    Kind::new("damaged dumps", 25, damaged_dumps),
    Kind::new("random dumps", 10, random_dumps),
];

/// The buffers that are full at one record, and the reply: rows and both others, references and the list, the list alone.
const FULL_BUFFERS: [i64; 3] = [
    reply::NO_ROW as i64,
    reply::NO_REFS as i64,
    reply::NO_ENTRY as i64,
];

#[test]
fn summaries() {
    let Some(coverage) = run("summaries", &KINDS, CASES) else {
        return;
    };
    if coverage.cases() < CASES {
        return;
    }
    let replies = [&READ_REPLIES[..], &[reply::NO_ENTRY]].concat();
    let rare = [
        coverage.rare_replies("read with a list", &replies, LEAST),
        coverage.rare("entry", &ENTRIES, LEAST),
        coverage.rare("full buffers", &FULL_BUFFERS, LEAST),
    ];
    assert_eq!(
        rare.concat(),
        [0; 0],
        "replies or entries that occurred too rarely"
    );
}

/// Returns the capacity for everything that these tables have.
fn capacity_for(tables: &OwnedTables) -> Capacity {
    Capacity {
        rows: tables.count() * ROW_LEN,
        refs: tables.refs.len(),
        classes: keys_of(&tables.rows).len(),
    }
}

impl Case<'_> {
    /// Reads on both sides and counts the reply and the entries.
    fn read_list(&mut self, dump: &[u8], capacity: Capacity) -> Result<Outcome, String> {
        let read = read(dump, capacity, self.rng.any())?;
        self.coverage.count_reply("read with a list", read.reply);
        count_entries(&read, capacity, self.coverage);
        Ok(read)
    }

    /// Reads the first `cut` bytes of a dump by the library alone.
    fn cut_list(&mut self, dump: &[u8], cut: usize, capacity: Capacity) -> Result<Outcome, String> {
        let salt = self.rng.any();
        let read = read_by(library::read, &dump[..cut], capacity, salt);
        self.coverage.count_reply("read with a list", read.reply);
        check_list_read(&read, &dump[..cut], capacity, salt)
            .and_then(|()| check_definition(&read))
            .map_err(|error| with_dump(&format!("cut {cut}, {capacity:?}: {error}"), dump))?;
        Ok(read)
    }

    /// Returns a number of rows up to about 40, usually few.
    fn count(&mut self) -> usize {
        match self.rng.below(4) {
            0 => self.rng.index(40),
            _ => self.rng.index(14),
        }
    }

    /// Returns good tables: those made for summaries, or any.
    fn any_tables(&mut self) -> OwnedTables {
        if self.rng.one_in(3) {
            return good::small_tables(&mut self.rng);
        }
        let count = self.count();
        summary_tables::tables(&mut self.rng, count)
    }
}

/// Checks that the bytes of all entries are those of the text, if no class is missing.
fn check_text_bytes(read: &Outcome, dump: &[u8]) -> Result<(), String> {
    let bytes: u64 = list_of(read).iter().map(|entry| entry.bytes).sum();
    match text_bytes(read, dump) {
        Some(text) if text != bytes => {
            let error = format!("{bytes} bytes in the list, {text} in the text");
            Err(with_dump(&error, dump))
        }
        _ => Ok(()),
    }
}

/// A whole dump with lists of every length up to more than it needs. The longest that is too short stops at the first row that
/// needs one more entry.
fn every_length(case: &mut Case) -> Result<(), String> {
    let tables = case.any_tables();
    let dump = encode::loose(&tables, &mut case.rng).bytes;
    let capacity = capacity_for(&tables);
    for classes in 0..capacity.classes + 3 {
        let read = case.read_list(
            &dump,
            Capacity {
                classes,
                ..capacity
            },
        )?;
        let expected = match classes < capacity.classes {
            true => (reply::NO_ENTRY, classes),
            false => (reply::DONE, capacity.classes),
        };
        if (read.reply, list_of(&read).len()) != expected {
            let error = format!("{classes} entries: reply {}", read.reply);
            return Err(with_dump(&error, &dump));
        }
        if read.reply == reply::DONE {
            check_text_bytes(&read, &dump)?;
        }
    }
    Ok(())
}

/// Returns the rows that need a new entry.
fn new_entries(tables: &OwnedTables) -> Vec<usize> {
    let is_new = |at: &usize| {
        let before = keys_of(&tables.first_rows(*at).rows);
        key_of(tables.row(*at)).is_some_and(|key| !before.contains(&key))
    };
    (0..tables.count()).filter(is_new).collect()
}

/// Buffers that are full at a record that needs a new entry: `NO_ROW` comes first, then `NO_REFS`, then `NO_ENTRY`.
fn full_buffers(case: &mut Case) -> Result<(), String> {
    let tables = case.any_tables();
    let encoded = encode::loose(&tables, &mut case.rng);
    let new = new_entries(&tables);
    if new.is_empty() {
        return Ok(());
    }
    let at = case.rng.pick(&new);
    let row = tables.row(at);
    let mut capacity = Capacity {
        rows: at * ROW_LEN + case.rng.index(ROW_LEN),
        refs: (row[FIRST] + case.rng.below(row[COUNT].max(1))) as usize,
        classes: keys_of(&tables.first_rows(at).rows).len(),
    };
    let full = capacity_for(&tables);
    let mut stop = |capacity, reply| {
        let read = case.read_list(&encoded.bytes, capacity)?;
        case.coverage.count_reply("full buffers", read.reply);
        let expected = (reply, encoded.starts[at], at, 0);
        let actual = (read.reply, read.place(), read.row_count(), read.missing());
        if actual != expected {
            let error = format!("{capacity:?}: {actual:?}, expected {expected:?}");
            return Err(with_dump(&error, &encoded.bytes));
        }
        Ok(())
    };
    stop(capacity, reply::NO_ROW)?;
    capacity.rows = full.rows;
    if row[COUNT] > 0 {
        stop(capacity, reply::NO_REFS)?;
    }
    capacity.refs = full.refs;
    stop(capacity, reply::NO_ENTRY)
}

/// Returns a capacity that is enough, or sometimes not.
fn some_capacity(case: &mut Case, full: Capacity) -> Capacity {
    let mut capacity = full;
    if case.rng.one_in(4) {
        capacity.classes = case.rng.index(full.classes + 1);
    }
    if case.rng.one_in(6) {
        capacity.rows = case.rng.index(full.rows + 1);
    }
    if case.rng.one_in(6) {
        capacity.refs = case.rng.index(full.refs + 1);
    }
    capacity
}

/// Checks that the longer of two cuts has everything that the shorter stored, and its reply and list if the reply is final.
fn check_cuts(less: &Outcome, more: &Outcome, same: bool, dump: &[u8]) -> Result<(), String> {
    check_prefix(less, more, same).map_err(|error| with_dump(&error, dump))?;
    let (less_keys, more_keys) = (keys_of(rows_of(less)), keys_of(rows_of(more)));
    if !more_keys.starts_with(&less_keys) {
        return Err(with_dump(
            "the classes of the shorter cut are no prefix",
            dump,
        ));
    }
    Ok(())
}

/// Every cut of a dump, in buffers of the same capacity.
fn every_cut(case: &mut Case) -> Result<(), String> {
    let count = case.rng.index(9);
    let tables = summary_tables::tables(&mut case.rng, count);
    let dump = encode::loose(&tables, &mut case.rng).bytes;
    let capacity = some_capacity(case, capacity_for(&tables));
    let mut previous = case.cut_list(&dump, 0, capacity)?;
    for cut in 1..=dump.len() {
        let read = case.cut_list(&dump, cut, capacity)?;
        check_cuts(&previous, &read, true, &dump)?;
        previous = read;
    }
    Ok(())
}

/// Two cuts of a dump, good or damaged, of which the longer has buffers that are the same or larger.
fn two_cuts(case: &mut Case) -> Result<(), String> {
    let tables = case.any_tables();
    let encoded = encode::loose(&tables, &mut case.rng);
    let dump = match case.rng.one_in(2) {
        true => encoded.bytes,
        false => damage::damaged(&mut case.rng, &encoded).0,
    };
    for _ in 0..4 {
        let (one, two) = (
            case.rng.index(dump.len() + 1),
            case.rng.index(dump.len() + 1),
        );
        let capacity = some_capacity(case, capacity_for(&tables));
        let mut larger = capacity;
        if case.rng.one_in(2) {
            larger.rows += case.rng.index(40);
            larger.refs += case.rng.index(9);
            larger.classes += case.rng.index(4);
        }
        let less = case.cut_list(&dump, one.min(two), capacity)?;
        let more = case.cut_list(&dump, one.max(two), larger)?;
        check_cuts(&less, &more, capacity == larger, &dump)?;
    }
    Ok(())
}

fn damaged_dumps(case: &mut Case) -> Result<(), String> {
    let tables = case.any_tables();
    let encoded = encode::loose(&tables, &mut case.rng);
    let (dump, _) = damage::damaged(&mut case.rng, &encoded);
    let mut full = capacity_for(&tables);
    full.rows += 2 * ROW_LEN;
    full.refs += 9;
    full.classes += 2;
    for _ in 0..2 {
        let capacity = some_capacity(case, full);
        let read = case.read_list(&dump, capacity)?;
        if read.answer[answer::BITS] != 0 {
            check_text_bytes(&read, &dump)?;
        }
    }
    Ok(())
}

/// Random bytes. A list of as many entries as there can be rows is never full.
fn random_dumps(case: &mut Case) -> Result<(), String> {
    let dump = damage::random(&mut case.rng);
    let rows = library::max_rows(dump.len());
    let full = Capacity {
        rows: rows * ROW_LEN,
        refs: library::max_refs(dump.len()),
        classes: rows,
    };
    let read = case.read_list(&dump, full)?;
    if read.reply == reply::NO_ENTRY {
        return Err(with_dump("a list of maximal length is too short", &dump));
    }
    let capacity = some_capacity(case, full);
    case.read_list(&dump, capacity)?;
    Ok(())
}
