//! Compares the library with the plain implementation on random cases: good, mutated and garbage tables; loosely encoded, damaged
//! and random dumps; and buffers that are too small by one.

use crate::boundaries::{self, GAPS, LENGTHS, MISSING, NULLS};
use crate::class_index::{count_indexed, INDEXED, ROWS};
use crate::class_searches::{count_searches, SEARCHES};
use crate::compare::{self, check_query, with_dump, with_tables, Operation, Outcome, TEXT, WRITE};
use crate::coverage::READ_REPLIES;
use crate::damage;
use crate::encode;
use crate::good;
use crate::mutate;
use crate::read_back::{check_places, check_whole};
use crate::rng::Rng;
use crate::run::{run, Case, Kind};
use crate::tables::*;
use phd_host::{library, reply};

/// How many cases run, and how often each reply and each boundary value must occur at least.
const CASES: u64 = 300_000;
const LEAST: u64 = 50;

const KINDS: [Kind; 6] = [
    Kind::new("good tables", 24, good_tables),
    Kind::new("mutated tables", 26, mutated_tables),
    Kind::new("garbage tables", 4, garbage_tables),
    Kind::new("loose dumps", 16, loose_dumps),
    Kind::new("damaged dumps", 24, damaged_dumps),
    Kind::new("random dumps", 6, random_dumps),
];

/// The replies of a write, of a text and of their size queries that random cases must give.
const WRITE_REPLIES: [u64; 4] = [
    reply::DONE,
    reply::BAD_HEADER,
    reply::BAD_ROW,
    reply::NO_OUTPUT,
];
const TEXT_REPLIES: [u64; 5] = [
    reply::DONE,
    reply::BAD_HEADER,
    reply::BAD_ROW,
    reply::NO_OUTPUT,
    reply::NO_CLASS,
];
const WRITE_SIZE_REPLIES: [u64; 3] = [reply::DONE, reply::BAD_HEADER, reply::BAD_ROW];
const TEXT_SIZE_REPLIES: [u64; 4] = [
    reply::DONE,
    reply::BAD_HEADER,
    reply::BAD_ROW,
    reply::NO_CLASS,
];

#[test]
fn cases() {
    let Some(coverage) = run("cases", &KINDS, CASES) else {
        return;
    };
    if coverage.cases() < CASES {
        return;
    }
    let rare = [
        coverage.rare_replies("read", &READ_REPLIES, LEAST),
        coverage.rare_replies("write", &WRITE_REPLIES, LEAST),
        coverage.rare_replies("text", &TEXT_REPLIES, LEAST),
        coverage.rare_replies("write size", &WRITE_SIZE_REPLIES, LEAST),
        coverage.rare_replies("text size", &TEXT_SIZE_REPLIES, LEAST),
        coverage.rare("gap", &GAPS, LEAST),
        coverage.rare("reference", &GAPS, LEAST),
        coverage.rare("length", &LENGTHS, LEAST),
        coverage.rare("nulls", &NULLS, LEAST),
        coverage.rare("search", &SEARCHES, LEAST),
        coverage.rare("rows", &ROWS, LEAST),
        coverage.rare("index", &INDEXED, LEAST),
        coverage.rare("missing", &MISSING, LEAST),
    ];
    assert_eq!(
        rare.concat(),
        [0; 0],
        "replies or boundary values that occurred too rarely"
    );
}

impl Case<'_> {
    /// Reads on both sides and counts the reply.
    fn read(&mut self, dump: &[u8], capacities: (usize, usize)) -> Result<Outcome, String> {
        let read = compare::read(dump, capacities, self.rng.any())?;
        self.coverage.count_reply("read", read.reply);
        if read.reply == reply::CUT {
            boundaries::count_missing(read.missing(), self.coverage);
        }
        Ok(read)
    }

    /// Writes a dump or a text on both sides and counts the reply.
    fn write(
        &mut self,
        operation: &Operation,
        tables: &OwnedTables,
        capacity: usize,
    ) -> Result<Outcome, String> {
        let write = compare::write(operation, tables, capacity, self.rng.any())?;
        self.coverage.count_reply(operation.name, write.reply);
        if operation.name == TEXT.name && write.reply == reply::DONE {
            boundaries::count_nulls(tables, self.coverage);
            count_searches(tables, self.coverage);
        }
        if operation.name == TEXT.name {
            count_indexed(tables, write.reply, self.coverage);
        }
        Ok(write)
    }

    /// Reads with enough capacity for `rows` rows and `refs` references, and again with another capacity.
    fn read_twice(&mut self, dump: &[u8], rows: usize, refs: usize) -> Result<Outcome, String> {
        let more = (self.rng.index(30), self.rng.index(6));
        let read = self.read(dump, (rows * ROW_LEN + more.0, refs + more.1))?;
        let (rows, refs) = (read.row_count(), read.ref_count());
        let capacities = (
            row_capacity(&mut self.rng, rows),
            ref_capacity(&mut self.rng, refs),
        );
        let again = self.read(dump, capacities)?;
        let fits = capacities.0 >= rows * ROW_LEN && capacities.1 >= refs;
        let full = matches!(read.reply, reply::NO_ROW | reply::NO_REFS);
        if fits && !full && again.answer != read.answer {
            return Err(with_dump("exact capacity gives another answer", dump));
        }
        Ok(read)
    }

    /// Reads with the maximal capacity for a dump of this length, which must be enough.
    fn read_max(&mut self, dump: &[u8]) -> Result<(), String> {
        let rows = library::max_rows(dump.len());
        let read = self.read(dump, (rows * ROW_LEN, library::max_refs(dump.len())))?;
        if matches!(read.reply, reply::NO_ROW | reply::NO_REFS) {
            return Err(with_dump("tables of maximal capacity are too small", dump));
        }
        Ok(())
    }

    /// Makes a size query, writes with capacity enough, and writes again with another capacity and other offsets, which must
    /// not matter.
    fn write_twice(
        &mut self,
        operation: &Operation,
        tables: &OwnedTables,
        bound: usize,
    ) -> Result<Outcome, String> {
        let query = compare::query_size(operation, tables, self.rng.any())?;
        self.coverage.count_reply(operation.size_name, query.reply);
        let enough = bound + self.rng.index(20);
        let write = self.write(operation, tables, enough)?;
        let size = match query.reply {
            reply::DONE => query.place(),
            _ => bound,
        };
        let capacity = match self.rng.below(6) {
            0..=1 => size,
            2..=3 => size.saturating_sub(1),
            4 => 0,
            _ => self.rng.index(size + 1),
        };
        let other_offsets = tables.with_offsets(|| self.rng.any());
        let again = self.write(operation, &other_offsets, capacity)?;
        check_query(&query, &write, enough)
            .and_then(|()| check_query(&query, &again, capacity))
            .and_then(|()| check_same_bytes(&write, &again))
            .map_err(|error| with_tables(&format!("{} {error}", operation.name), tables))?;
        Ok(write)
    }

    /// Writes what was read as a dump and as text. Returns the dump, or nothing if there is no header.
    fn convert(&mut self, dump: &[u8], read: &Outcome) -> Result<Option<Vec<u8>>, String> {
        if read.answer[answer::BITS] == 0 {
            return Ok(None);
        }
        let tables = OwnedTables::of_read(dump, &read.answer, &read.tables[0], &read.tables[1]);
        let copy = self.write_twice(&WRITE, &tables, 2 * dump.len())?;
        let text = self.write_twice(&TEXT, &tables, tables.text_bound())?;
        if copy.reply != reply::DONE {
            return Err(with_dump("what was read is not written", dump));
        }
        if !matches!(text.reply, reply::DONE | reply::NO_CLASS) {
            return Err(with_dump("what was read is refused as a text", dump));
        }
        Ok(Some(copy.written().to_vec()))
    }

    /// Checks that a written dump is read back as the tables were.
    fn round_trip(&mut self, tables: &OwnedTables, dump: &[u8]) -> Result<(), String> {
        let read = self.read_twice(dump, tables.count(), tables.refs.len())?;
        check_whole(tables, dump, &read).map_err(|error| with_tables(&error, tables))
    }

    /// Writes tables, good or not, as a dump and as text. If there is a dump, it must be read back as the tables were.
    fn write_any(&mut self, tables: &OwnedTables, bound: usize) -> Result<(), String> {
        let write = self.write_twice(&WRITE, tables, bound)?;
        self.write_twice(&TEXT, tables, tables.text_bound())?;
        if write.reply == reply::DONE {
            self.round_trip(tables, write.written())?;
        }
        Ok(())
    }
}

/// Checks that two writes give the same bytes if both are done.
fn check_same_bytes(one: &Outcome, two: &Outcome) -> Result<(), String> {
    let both = one.reply == reply::DONE && two.reply == reply::DONE;
    if both && one.written() != two.written() {
        return Err("gives other bytes with other offsets".to_string());
    }
    Ok(())
}

/// Returns a capacity for `rows` rows, in numbers: exact, too small by a row or by a number, with some numbers over, more, or
/// none.
fn row_capacity(rng: &mut Rng, rows: usize) -> usize {
    let exact = rows * ROW_LEN;
    match rng.below(9) {
        0..=1 => exact,
        2 => exact.saturating_sub(ROW_LEN),
        3 => exact.saturating_sub(1),
        4 => exact + 1 + rng.index(ROW_LEN - 1),
        5 => rng.index(exact + 1),
        6 => rng.pick(&[0, 1, ROW_LEN - 1, ROW_LEN]),
        _ => exact + ROW_LEN * (1 + rng.index(3)),
    }
}

/// Returns a capacity for `refs` references: exact, too small by one, smaller, none, or more.
fn ref_capacity(rng: &mut Rng, refs: usize) -> usize {
    match rng.below(7) {
        0..=1 => refs,
        2..=3 => refs.saturating_sub(1),
        4 => rng.index(refs + 1),
        5 => 0,
        _ => refs + 1 + rng.index(5),
    }
}

/// Good tables are written in the canonical form, read back, and written as text.
fn good_tables(case: &mut Case) -> Result<(), String> {
    let tables = good::tables(&mut case.rng);
    boundaries::count_tables(&tables, case.coverage);
    let encoded = encode::canonical(&tables);
    let write = case.write_twice(&WRITE, &tables, encoded.bytes.len())?;
    if write.reply != reply::DONE || write.written() != encoded.bytes {
        let expected = hex(&encoded.bytes);
        let out = hex(&write.out);
        let error = format!("written {out}, expected {expected}, reply {}", write.reply);
        return Err(with_tables(&error, &tables));
    }
    case.round_trip(&tables, &encoded.bytes)?;
    case.write_twice(&TEXT, &tables, tables.text_bound())?;
    Ok(())
}

/// Good tables with a few changes.
fn mutated_tables(case: &mut Case) -> Result<(), String> {
    let good = good::tables(&mut case.rng);
    let tables = mutate::mutated(&mut case.rng, &good);
    case.write_any(&tables, encode::canonical(&good).bytes.len() + 100)
}

fn garbage_tables(case: &mut Case) -> Result<(), String> {
    let tables = mutate::garbage(&mut case.rng);
    case.write_any(&tables, 1000)
}

/// Loosely encoded dumps give the records that were encoded, and are written again in the canonical form.
fn loose_dumps(case: &mut Case) -> Result<(), String> {
    let tables = good::tables(&mut case.rng);
    let loose = encode::loose(&tables, &mut case.rng);
    let dump = &loose.bytes;
    case.read_max(dump)?;
    let read = case.read_twice(dump, tables.count(), tables.refs.len())?;
    check_whole(&tables, dump, &read)
        .and_then(|()| check_places(&loose, &read))
        .map_err(|error| with_dump(&error, dump))?;
    let copy = case.convert(dump, &read)?;
    if copy != Some(encode::canonical(&tables).bytes) {
        return Err(with_dump("the copy is not the canonical dump", dump));
    }
    Ok(())
}

fn damaged_dumps(case: &mut Case) -> Result<(), String> {
    let tables = good::tables(&mut case.rng);
    let encoded = if case.rng.one_in(3) {
        encode::canonical(&tables)
    } else {
        encode::loose(&tables, &mut case.rng)
    };
    let (dump, _) = damage::damaged(&mut case.rng, &encoded);
    case.read_max(&dump)?;
    let rows = tables.count() + case.rng.index(4);
    let read = case.read_twice(&dump, rows, tables.refs.len() + 10)?;
    case.convert(&dump, &read)?;
    Ok(())
}

fn random_dumps(case: &mut Case) -> Result<(), String> {
    let dump = damage::random(&mut case.rng);
    case.read_max(&dump)?;
    let read = case.read_twice(&dump, dump.len() / 2, dump.len())?;
    case.convert(&dump, &read)?;
    Ok(())
}
