//! The boundary values of widths, the cases of nulls, and the missing bytes; counts how often they occur.

use crate::coverage::Coverage;
use crate::encode::gap;
use crate::tables::*;

/// The least and greatest numbers of a byte, a short and an int, and those just outside.
pub const GAPS: [i64; 12] = [
    -128,
    -129,
    127,
    128,
    -32_768,
    -32_769,
    32_767,
    32_768,
    -(1 << 31),
    -(1 << 31) - 1,
    (1 << 31) - 1,
    1 << 31,
];

/// The same for a length, which is at most an int.
pub const LENGTHS: [i64; 5] = [127, 128, 32_767, 32_768, (1 << 31) - 1];

/// The missing bytes of a cut: each count that a number can have, and more, which only a string can have.
pub const MISSING: [i64; 9] = [1, 2, 3, 4, 5, 6, 7, 8, MORE];
const MORE: i64 = 9;

/// Counts the missing bytes of a cut.
pub fn count_missing(missing: usize, coverage: &mut Coverage) {
    coverage.count("missing", MORE.min(missing as i64));
}

/// The cases of nulls: an array with none, with some, with only nulls; several arrays with nulls; more nulls than an int holds.
pub const NULLS: [i64; 5] = [NONE, SOME, ALL, SEVERAL, MANY];
const NONE: i64 = 0;
const SOME: i64 = 1;
const ALL: i64 = 2;
const SEVERAL: i64 = 3;
const MANY: i64 = 4;

/// Counts the cases of nulls in the object arrays of tables.
pub fn count_nulls(tables: &OwnedTables, coverage: &mut Coverage) {
    let rows = (0..tables.count()).map(|index| tables.row(index));
    let (mut arrays, mut total) = (0, 0);
    for row in rows.filter(|row| row[KIND] == kind::OBJECT_ARRAY) {
        let nulls = row[LENGTH] - row[COUNT];
        let case = match (row[COUNT], nulls) {
            (_, 0) => NONE,
            (0, _) => ALL,
            _ => SOME,
        };
        coverage.count("nulls", case);
        arrays += u64::from(nulls > 0);
        total += nulls;
    }
    if arrays > 1 {
        coverage.count("nulls", SEVERAL);
    }
    if total > u64::from(u32::MAX) {
        coverage.count("nulls", MANY);
    }
}

/// Counts the boundary values among the gaps, references and lengths of good tables.
pub fn count_tables(tables: &OwnedTables, coverage: &mut Coverage) {
    let mut count = |topic, number, boundaries: &[i64]| {
        if boundaries.contains(&number) {
            coverage.count(topic, number);
        }
    };
    let mut previous = 0;
    for index in 0..tables.count() {
        let row = tables.row(index);
        count("gap", gap(previous, row[ADDRESS]), &GAPS);
        for to in tables.refs_of(index) {
            count("reference", gap(row[ADDRESS], *to), &GAPS);
        }
        if row[KIND] == kind::PRIMITIVE_ARRAY {
            count("length", row[LENGTH] as i64, &LENGTHS);
        }
        previous = row[ADDRESS];
    }
}
