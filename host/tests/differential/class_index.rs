//! The index in which the library's text finds the class rows of large tables, as far as tests must know it to reach its cases, and
//! counts of how often they occur. The replies and bytes of a text do not depend on it.

use crate::coverage::Coverage;
use crate::tables::*;
use phd_host::reply;
use std::collections::HashMap;

/// Tables of at most so many rows are searched row by row, without the index.
pub const ROWS_WITHOUT: usize = 64;

/// At how many buckets the search for an address can begin, in a small index and in a large one, which is made if the small one has
/// no free bucket for a class row. `PROBES` more buckets follow the last of them.
pub const SMALL: usize = 16_384;
pub const LARGE: usize = 131_072;

/// How many buckets are looked at for an address.
pub const PROBES: usize = 64;

/// Addresses at this distance have the same hash, and so the same bucket, apart from carries.
pub const SAME_HASH: u64 = (1 << 34) - 4;

/// Returns the bucket at which the search for an address begins, in an index of this size.
pub fn bucket(address: u64, size: usize) -> usize {
    let folded = (address / 4 + (address >> 34)) % (1 << 32);
    let hash = folded * 0x9E37_79B1 % (1 << 32);
    ((hash * size as u64) >> 32) as usize
}

/// Returns how many buckets are passed before each of these addresses is found in an index of this size. Returns nothing if one of
/// them has no free bucket. The addresses are entered from the last to the first.
fn passed_in(size: usize, addresses: &[u64]) -> Option<HashMap<u64, usize>> {
    let mut entries = HashMap::new();
    let mut passed = HashMap::new();
    for address in addresses.iter().rev() {
        let start = bucket(*address, size);
        let is_free = |at: &usize| *entries.entry(start + at).or_insert(*address) == *address;
        passed.insert(*address, (0..PROBES).find(is_free)?);
    }
    Some(passed)
}

/// Returns the size of the index that is made for class rows at these addresses, and how many buckets are passed before each is
/// found. Returns nothing if even a large index has no free bucket for one of them: then the text searches row by row.
pub fn passed_buckets(addresses: &[u64]) -> Option<(usize, HashMap<u64, usize>)> {
    let in_size = |size| passed_in(size, addresses).map(|passed| (size, passed));
    in_size(SMALL).or_else(|| in_size(LARGE))
}

/// How many rows tables have that were written as text: about as many as are searched without the index, and more.
pub const ROWS: [i64; 5] = [63, 64, 65, 66, MORE_ROWS];
const MORE_ROWS: i64 = 67;

/// Of an object in tables with an index: its class row is before it; after it; there are two with that address; it is not in the
/// bucket at which the search for its address begins. The same of an object array. Of tables with an index: a class row has no free bucket;
/// a class is missing.
pub const INDEXED: [i64; 10] = [
    BEFORE,
    AFTER,
    TWO,
    PASSED,
    ARRAY + BEFORE,
    ARRAY + AFTER,
    ARRAY + TWO,
    ARRAY + PASSED,
    NO_BUCKET,
    NO_CLASS,
];
const BEFORE: i64 = 0;
const AFTER: i64 = 1;
const TWO: i64 = 2;
const PASSED: i64 = 3;
const ARRAY: i64 = 10;
const NO_BUCKET: i64 = 20;
const NO_CLASS: i64 = 21;

/// Counts the cases in good tables whose text was written, or refused since a class is missing.
pub fn count_indexed(tables: &OwnedTables, reply: u64, coverage: &mut Coverage) {
    let rows = tables.count();
    if reply == reply::DONE && rows as i64 >= ROWS[0] {
        coverage.count("rows", MORE_ROWS.min(rows as i64));
    }
    if rows <= ROWS_WITHOUT {
        return;
    }
    if reply == reply::NO_CLASS {
        coverage.count("index", NO_CLASS);
        return;
    }
    let is_class = |index: &usize| tables.row(*index)[KIND] == kind::CLASS;
    let classes: Vec<usize> = (0..rows).filter(is_class).collect();
    let address = |index: &usize| tables.row(*index)[ADDRESS];
    let addresses: Vec<u64> = classes.iter().map(address).collect();
    let Some((_, passed)) = passed_buckets(&addresses) else {
        coverage.count("index", NO_BUCKET);
        return;
    };
    for index in 0..rows {
        let row = tables.row(index);
        let array = match row[KIND] {
            kind::OBJECT => 0,
            kind::OBJECT_ARRAY => ARRAY,
            _ => continue,
        };
        let same = |class: &&usize| address(class) == row[CLASS];
        let at: Vec<&usize> = classes.iter().filter(same).collect();
        let is_before = at.first().is_some_and(|class| **class < index);
        coverage.count("index", array + if is_before { BEFORE } else { AFTER });
        if at.len() > 1 {
            coverage.count("index", array + TWO);
        }
        if passed.get(&row[CLASS]).is_some_and(|passed| *passed > 0) {
            coverage.count("index", array + PASSED);
        }
    }
}
