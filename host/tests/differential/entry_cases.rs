//! The cases of the entries of a list of class summaries; counts how often they occur.

use crate::compare::Outcome;
use crate::coverage::Coverage;
use crate::summaries::{list_of, rows_of, Capacity};
use crate::tables::*;
use phd_host::summary::{mark, Summary};

/// Of an entry: a class row is before all its objects; after all of them; between them; there are two with other sizes; there is
/// none; it has objects and object arrays; its class word is a primitive type that has an entry too; it has a class row and no
/// object. Of a read: the list is exactly full.
pub const ENTRIES: [i64; 9] = [
    BEFORE, AFTER, BETWEEN, TWO_SIZES, MISSING, BOTH_KINDS, ALSO_TYPE, NO_OBJECT, FULL,
];
const BEFORE: i64 = 0;
const AFTER: i64 = 1;
const BETWEEN: i64 = 2;
const TWO_SIZES: i64 = 3;
const MISSING: i64 = 4;
const BOTH_KINDS: i64 = 5;
const ALSO_TYPE: i64 = 6;
const NO_OBJECT: i64 = 7;
const FULL: i64 = 8;

/// Counts the cases in the list of a read.
pub fn count_entries(read: &Outcome, capacity: Capacity, coverage: &mut Coverage) {
    let rows: Vec<&[u64]> = rows_of(read).chunks_exact(ROW_LEN).collect();
    let list = list_of(read);
    let mut count = |case, occurs| {
        if occurs {
            coverage.count("entry", case);
        }
    };
    count(FULL, list.len() == capacity.classes && !list.is_empty());
    for entry in list.iter().filter(|entry| entry.mark == mark::CLASS_WORD) {
        let is_type =
            |other: &Summary| other.mark == mark::PRIMITIVE_TYPE && other.class == entry.class;
        count(ALSO_TYPE, list.iter().any(is_type));
        count_classes(&rows, entry.class, &mut count);
    }
}

/// Counts the cases of the entry of a class word: where its class rows, objects and object arrays are.
fn count_classes(rows: &[&[u64]], word: u64, mut count: impl FnMut(i64, bool)) {
    let places = |kind, number: usize| -> Vec<usize> {
        let is_it = |at: &usize| rows[*at][KIND] == kind && rows[*at][number] == word;
        (0..rows.len()).filter(is_it).collect()
    };
    let classes = places(kind::CLASS, ADDRESS);
    let objects = places(kind::OBJECT, CLASS);
    let arrays = places(kind::OBJECT_ARRAY, CLASS);
    count(MISSING, classes.is_empty() && !objects.is_empty());
    count(NO_OBJECT, !classes.is_empty() && objects.is_empty());
    count(BOTH_KINDS, !objects.is_empty() && !arrays.is_empty());
    let (Some(class), Some(first), Some(last)) = (classes.first(), objects.first(), objects.last())
    else {
        return;
    };
    count(BEFORE, class < first);
    count(AFTER, class > last);
    count(BETWEEN, class > first && class < last);
    let other_size = |at: &usize| rows[*at][SIZE] != rows[*class][SIZE];
    count(TWO_SIZES, classes.iter().any(other_size));
}
