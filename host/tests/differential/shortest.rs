//! Checks that each record that the library writes is the shortest: no other tag and flag byte give fewer bytes that are read as
//! the row.

use crate::compare::{self, with_dump, WRITE};
use crate::encode;
use crate::good;
use crate::run::{run, Case, Kind};
use crate::search::Search;
use crate::tables::*;

/// How many cases run, and how often each form must occur, and a shorter encoding of a loose record be found, at least.
const CASES: u64 = 20_000;
const LEAST: u64 = 50;

const KINDS: [Kind; 3] = [
    Kind::new("written records", 79, written_records),
    Kind::new("loose records", 20, loose_records),
    Kind::new("every run of bytes", 1, every_run),
];

#[test]
fn shortest() {
    let Some(coverage) = run("shortest", &KINDS, CASES) else {
        return;
    };
    if coverage.cases() < CASES {
        return;
    }
    let rare = [
        coverage.rare("form", &[0x80, 0x40, 0x20, 4, 6, 7, 8], LEAST),
        coverage.rare("loose", &[0, 1], LEAST),
        coverage.rare("every run", &[1, 2], 3),
    ];
    assert_eq!(rare.concat(), [0; 0], "forms that occurred too rarely");
}

/// Returns the first tag of the form that a tag belongs to.
fn form(tag: u8) -> i64 {
    match tag {
        0x80.. => 0x80,
        0x40.. => 0x40,
        0x20.. => 0x20,
        _ => tag.into(),
    }
}

/// Returns a dump that the library wrote, with the places of its records and of its end tag.
fn written(case: &mut Case, tables: &OwnedTables) -> Result<(Vec<u8>, Vec<usize>), String> {
    let capacity = encode::canonical(tables).bytes.len();
    let write = compare::write(&WRITE, tables, capacity, case.rng.any())?;
    let dump = write.written().to_vec();
    let capacities = (tables.rows.len(), tables.refs.len());
    let read = compare::read(&dump, capacities, case.rng.any())?;
    let rows = read.tables[0].chunks_exact(ROW_LEN).take(tables.count());
    let mut starts: Vec<usize> = rows.map(|row| row[OFFSET] as usize).collect();
    starts.push(dump.len() - 1);
    Ok((dump, starts))
}

/// The search finds a record of a written dump, and nothing shorter.
fn written_records(case: &mut Case) -> Result<(), String> {
    let tables = good::small_tables(&mut case.rng);
    if tables.count() == 0 {
        return Ok(());
    }
    let (dump, starts) = written(case, &tables)?;
    let index = case.rng.index(tables.count());
    let (start, end) = (starts[index], starts[index + 1]);
    case.coverage.count("form", form(dump[start]));
    let found = Search::new(&tables, index, &dump[..start]).shortest();
    if found != Some(end - start) {
        let row = format!("row {index} at {start} has {} bytes", end - start);
        return Err(with_dump(
            &format!("{row}, the search found {found:?}"),
            &dump,
        ));
    }
    Ok(())
}

/// The search finds an encoding of a loose record that is not longer, and often a shorter one. So it can find shorter ones.
fn loose_records(case: &mut Case) -> Result<(), String> {
    let tables = good::small_tables(&mut case.rng);
    if tables.count() == 0 {
        return Ok(());
    }
    let loose = encode::loose(&tables, &mut case.rng);
    let index = case.rng.index(tables.count());
    let (start, end) = (loose.starts[index], loose.starts[index + 1]);
    let found = Search::new(&tables, index, &loose.bytes[..start]).shortest();
    match found {
        Some(least) if least <= end - start => {
            case.coverage.count("loose", (least < end - start).into());
            Ok(())
        }
        _ => Err(with_dump(&format!("row {index}: {found:?}"), &loose.bytes)),
    }
}

/// If the shortest record of a written dump has at most three bytes, every shorter run of bytes is tried.
fn every_run(case: &mut Case) -> Result<(), String> {
    let tables = good::small_tables(&mut case.rng);
    let (dump, starts) = written(case, &tables)?;
    let size = |index: &usize| starts[index + 1] - starts[*index];
    let Some(index) = (0..tables.count()).min_by_key(size) else {
        return Ok(());
    };
    if size(&index) > 3 {
        return Ok(());
    }
    let mut search = Search::new(&tables, index, &dump[..starts[index]]);
    let mut is_read = |bytes: &[u8]| search.is_read(bytes);
    let one = (0..=0xFF).any(|byte| is_read(&[byte]));
    let pairs = (0..=0xFFFFu16).map(u16::to_be_bytes);
    let two = size(&index) > 2 && pairs.into_iter().any(|pair| is_read(&pair));
    if one || two {
        return Err(with_dump(
            &format!("row {index} has a shorter encoding"),
            &dump,
        ));
    }
    case.coverage.count("every run", size(&index) as i64 - 1);
    Ok(())
}
