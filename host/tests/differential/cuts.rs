//! Checks what is proved of cuts, on the library alone. The records of a shorter cut are the first of a longer one, and a final
//! reply stays. A cut of a written dump gives exactly the records that lie completely within it. Its missing bytes are exact: fewer
//! bytes more change nothing else, and no end tag comes before them.

use crate::compare::{check_read, read_by, with_dump, write_by, Outcome};
use crate::coverage::READ_REPLIES;
use crate::damage;
use crate::encode::{self, Encoded};
use crate::good;
use crate::read_back::{check_offsets, check_records};
use crate::run::{run, Case, Kind};
use crate::tables::*;
use phd_host::{library, reply};

const CASES: u64 = 120_000;

/// The replies that are not final: longer input or larger buffers may give another.
const NOT_FINAL: [u64; 4] = [reply::CUT, reply::NO_ROW, reply::NO_REFS, reply::NO_ENTRY];

/// What a longer cut showed about the missing bytes of a shorter one: some are still missing, or the end tag is reached.
const STILL_MISSING: i64 = 0;
const END_REACHED: i64 = 1;

/// Dumps up to this length are sometimes cut at every place.
const SWEEP_LIMIT: usize = 600;

const KINDS: [Kind; 4] = [
    Kind::new("cuts of written dumps", 40, written_dumps),
    Kind::new("cuts of loose dumps", 15, loose_dumps),
    Kind::new("cuts of damaged dumps", 35, damaged_dumps),
    Kind::new("cuts of random dumps", 10, random_dumps),
];

#[test]
fn cuts() {
    let Some(coverage) = run("cuts", &KINDS, CASES) else {
        return;
    };
    if coverage.cases() >= CASES {
        assert_eq!(
            coverage.rare_replies("read", &READ_REPLIES, 10),
            [0; 0],
            "replies that occurred too rarely"
        );
        assert_eq!(
            coverage.rare("longer cut", &[STILL_MISSING, END_REACHED], 10_000),
            [0; 0],
            "missing bytes that were checked too rarely"
        );
    }
}

impl Case<'_> {
    /// Reads the first `cut` bytes of a dump.
    fn cut(
        &mut self,
        dump: &[u8],
        cut: usize,
        capacities: (usize, usize),
    ) -> Result<Outcome, String> {
        let salt = self.rng.any();
        let read = read_by(library::read_tables, &dump[..cut], capacities, salt);
        self.coverage.count_reply("read", read.reply);
        match check_read(&read, &dump[..cut], salt) {
            Ok(()) => Ok(read),
            Err(error) => Err(with_dump(
                &format!("cut {cut}, capacities {capacities:?}: {error}"),
                dump,
            )),
        }
    }

    /// Chooses a cut: at any place, or close to the start of a record.
    fn place(&mut self, dump: &[u8], starts: &[usize]) -> usize {
        if starts.is_empty() || self.rng.one_in(2) {
            return self.rng.index(dump.len() + 1);
        }
        let near = self.rng.pick(starts) + self.rng.index(3);
        near.saturating_sub(1).min(dump.len())
    }

    /// Compares two cuts of a dump, of which the longer is read with the same capacity or with more.
    fn two_cuts(
        &mut self,
        dump: &[u8],
        starts: &[usize],
        full: (usize, usize),
    ) -> Result<(), String> {
        let (one, two) = (self.place(dump, starts), self.place(dump, starts));
        let (short, mut long) = (one.min(two), one.max(two));
        if self.rng.one_in(4) {
            long = dump.len();
        } else if self.rng.one_in(4) {
            long = dump.len().min(short + self.rng.index(9));
        }
        let capacities = if self.rng.one_in(3) {
            (self.rng.index(full.0 + 1), self.rng.index(full.1 + 1))
        } else {
            full
        };
        let larger = if self.rng.one_in(3) {
            let (rows, refs) = capacities;
            (rows + self.rng.index(40), refs + self.rng.index(9))
        } else {
            capacities
        };
        let less = self.cut(dump, short, capacities)?;
        let more = self.cut(dump, long, larger)?;
        let what = format!("cuts {short} and {long}, capacities {capacities:?} and {larger:?}");
        check_prefix(&less, &more, capacities == larger)
            .and_then(|()| self.check_missing(&less, &more, short, long))
            .map_err(|error| with_dump(&format!("{what}: {error}"), dump))
    }

    /// Checks the missing bytes of a shorter cut. If the longer cut has fewer bytes more than are missing, its answer is the
    /// same but for as many fewer missing bytes. If it reaches the end tag, that is after the missing bytes.
    fn check_missing(
        &mut self,
        less: &Outcome,
        more: &Outcome,
        short: usize,
        long: usize,
    ) -> Result<(), String> {
        if less.reply != reply::CUT || short == long {
            return Ok(());
        }
        let (missing, given) = (less.missing(), long - short);
        if given < missing {
            self.coverage.count("longer cut", STILL_MISSING);
            let mut expected = less.answer;
            expected[answer::MISSING] -= given as u64;
            if more.answer != expected {
                return Err(format!(
                    "{given} of {missing} missing bytes: {:X?}, then {:X?}",
                    less.answer, more.answer
                ));
            }
        }
        if more.reply == reply::DONE {
            self.coverage.count("longer cut", END_REACHED);
            if more.place() < short + missing {
                return Err(format!("{missing} missing, the end at {}", more.place()));
            }
        }
        Ok(())
    }

    /// Compares every cut of a dump with the one before.
    fn sweep(&mut self, dump: &[u8], capacities: (usize, usize)) -> Result<(), String> {
        let mut previous = self.cut(dump, 0, capacities)?;
        for cut in 1..=dump.len() {
            let read = self.cut(dump, cut, capacities)?;
            check_prefix(&previous, &read, true)
                .and_then(|()| self.check_missing(&previous, &read, cut - 1, cut))
                .map_err(|error| format!("cuts up to {cut}, {capacities:?}: {error}"))
                .map_err(|error| with_dump(&error, dump))?;
            previous = read;
        }
        Ok(())
    }

    /// Compares some pairs of cuts, and sometimes all cuts.
    fn cuts(
        &mut self,
        dump: &[u8],
        starts: &[usize],
        capacities: (usize, usize),
    ) -> Result<(), String> {
        for _ in 0..4 {
            self.two_cuts(dump, starts, capacities)?;
        }
        if dump.len() <= SWEEP_LIMIT && self.rng.one_in(20) {
            self.sweep(dump, capacities)?;
        }
        Ok(())
    }

    /// Checks one cut of a written dump, with capacity for all of it.
    fn written_cut(
        &mut self,
        tables: &OwnedTables,
        encoded: &Encoded,
        cut: usize,
    ) -> Result<(), String> {
        let more = (self.rng.index(20), self.rng.index(3));
        let capacities = (
            tables.count() * ROW_LEN + more.0,
            tables.refs.len() + more.1,
        );
        let read = self.cut(&encoded.bytes, cut, capacities)?;
        check_written_cut(tables, encoded, cut, &read).map_err(|error| {
            let error = format!("cut {cut} of a written dump: {error}");
            with_dump(&error, &encoded.bytes)
        })
    }
}

/// Checks that the longer cut has everything that the shorter stored, and its reply if that is final. With the same capacity a
/// reply of too little capacity is final too.
pub fn check_prefix(less: &Outcome, more: &Outcome, same_capacity: bool) -> Result<(), String> {
    let widths = [ROW_LEN, 1];
    for (at, width) in widths.into_iter().enumerate() {
        let first = less.answer[answer::ROWS + at] as usize * width;
        let longer = more.answer[answer::ROWS + at] as usize * width;
        if first > longer || less.tables[at][..first] != more.tables[at][..first] {
            return Err(format!(
                "table {at}: that of the shorter cut is no prefix of the other"
            ));
        }
    }
    let is_final = !NOT_FINAL.contains(&less.reply) || (same_capacity && less.reply != reply::CUT);
    if is_final && (less.reply != more.reply || less.answer != more.answer) {
        return Err(format!("final {:X?}, then {:X?}", less.answer, more.answer));
    }
    Ok(())
}

/// Checks a cut of a written dump: it gives the records that lie completely within it, and its missing bytes are those of the
/// field in which it ends.
fn check_written_cut(
    tables: &OwnedTables,
    encoded: &Encoded,
    cut: usize,
    read: &Outcome,
) -> Result<(), String> {
    let (dump, starts) = (&encoded.bytes[..], &encoded.starts);
    let has_header = starts[0] <= cut;
    let records = starts[1..].iter().filter(|end| **end <= cut).count();
    let place = match (has_header, cut == dump.len()) {
        (false, _) => 0,
        (true, false) => starts[records],
        (true, true) => dump.len(),
    };
    let (reply, missing) = if cut < dump.len() {
        (reply::CUT, encoded.missing(cut))
    } else {
        (reply::DONE, 0)
    };
    let (expected, actual) = (
        (reply, place, missing),
        (read.reply, read.place(), read.missing()),
    );
    if actual != expected {
        return Err(format!(
            "reply, place and missing bytes {actual:?}, expected {expected:?}"
        ));
    }
    if has_header {
        check_records(&tables.first_rows(records), dump, read)?;
        return check_offsets(encoded, read);
    }
    if read.answer[answer::ROWS..answer::MISSING] != [0; 8] {
        return Err(format!("answer of a cut header: {:X?}", read.answer));
    }
    Ok(())
}

/// Dumps that the library wrote: a cut gives the records that lie completely within it, and the first rows alone give the start
/// of the dump.
fn written_dumps(case: &mut Case) -> Result<(), String> {
    let tables = good::small_tables(&mut case.rng);
    let encoded = encode::canonical(&tables);
    let capacity = encoded.bytes.len() + case.rng.index(9);
    let write = write_by(library::write, &tables, capacity, case.rng.any());
    let dump = write.written();
    if write.reply != reply::DONE || *dump != encoded.bytes {
        let error = format!("reply {}, another dump", write.reply);
        return Err(with_dump(&error, dump));
    }
    let some = case.rng.index(tables.count() + 1);
    let first_rows = tables.first_rows(some);
    let first = write_by(library::write, &first_rows, capacity, case.rng.any());
    let end = first.place().saturating_sub(1);
    let is_start = end == encoded.starts[some] && first.out[..end] == dump[..end];
    if first.reply != reply::DONE || !is_start {
        let error = format!("the first {some} rows end at {end}");
        return Err(with_dump(&error, dump));
    }
    for _ in 0..4 {
        let cut = case.place(dump, &encoded.starts);
        case.written_cut(&tables, &encoded, cut)?;
    }
    if dump.len() <= SWEEP_LIMIT && case.rng.one_in(20) {
        for cut in 0..=dump.len() {
            case.written_cut(&tables, &encoded, cut)?;
        }
    }
    let capacities = (tables.count() * ROW_LEN, tables.refs.len());
    case.cuts(dump, &encoded.starts, capacities)
}

fn loose_dumps(case: &mut Case) -> Result<(), String> {
    let tables = good::small_tables(&mut case.rng);
    let loose = encode::loose(&tables, &mut case.rng);
    let capacities = (tables.count() * ROW_LEN, tables.refs.len());
    case.cuts(&loose.bytes, &loose.starts, capacities)
}

fn damaged_dumps(case: &mut Case) -> Result<(), String> {
    let tables = good::small_tables(&mut case.rng);
    let mut encoded = encode::loose(&tables, &mut case.rng);
    let (dump, place) = damage::damaged(&mut case.rng, &encoded);
    let capacities = ((tables.count() + 2) * ROW_LEN, tables.refs.len() + 9);
    encoded.starts.extend([place, place + 1, place + 4]);
    case.cuts(&dump, &encoded.starts, capacities)
}

fn random_dumps(case: &mut Case) -> Result<(), String> {
    let dump = damage::random(&mut case.rng);
    case.cuts(&dump, &[], (60 * ROW_LEN, 120))
}
