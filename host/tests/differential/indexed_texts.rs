//! Compares the texts of fixed tables whose class rows are hard to find in an index: about as many rows as are searched without it,
//! two class rows with one address, class rows that share a bucket, and more class rows than buckets.

use crate::class_index::{bucket, passed_buckets, LARGE, PROBES, SAME_HASH, SMALL};
use crate::compare::{self, check_query, TEXT};
use crate::tables::*;
use phd_host::reply;
use std::collections::HashSet;

/// Where the class rows are: before the objects, after them, between them, or in turn with them.
#[derive(Clone, Copy, Debug)]
enum Order {
    First,
    Last,
    Between,
    InTurn,
}
const ORDERS: [Order; 4] = [Order::First, Order::Last, Order::Between, Order::InTurn];

/// A row: a class row at an address, or an object or object array by its class word.
#[derive(Clone, Copy, PartialEq)]
enum Entry {
    Class(u64),
    Object(u64),
    Array(u64),
}
use Entry::{Array, Class, Object};

/// The address of the first class, and one at which no table here has a class row.
const FIRST_CLASS: u64 = 0x7_0000_0000;
const MISSING: u64 = 0x7777_7770;

/// Returns the addresses of `count` classes.
fn classes_of(count: usize) -> Vec<u64> {
    (0..count as u64).map(|at| FIRST_CLASS + 256 * at).collect()
}

/// Returns the tables of these rows. Class rows have names and sizes of their own: row 5 is named `C5` and has 5 bytes.
fn tables_of(entries: &[Entry]) -> OwnedTables {
    let mut tables = OwnedTables {
        header: [64, 0, 1, 0, 0, 0],
        rows: Vec::new(),
        refs: Vec::new(),
        names: Vec::new(),
    };
    for (index, entry) in entries.iter().enumerate() {
        let mut row: Row = [0; ROW_LEN];
        row[ADDRESS] = 16 * index as u64;
        match *entry {
            Class(address) => {
                let name = format!("C{index}");
                (row[KIND], row[ADDRESS]) = (kind::CLASS, address);
                row[SIZE] = index as u64;
                row[NAME_PLACE] = tables.names.len() as u64;
                row[NAME_LENGTH] = name.len() as u64;
                tables.names.extend(name.bytes());
            }
            Object(class) => (row[KIND], row[CLASS]) = (kind::OBJECT, class),
            Array(class) => (row[KIND], row[CLASS]) = (kind::OBJECT_ARRAY, class),
        }
        tables.rows.extend(row);
    }
    tables
}

/// Returns `count` objects, every third of them an array: of these classes in a changing order, over and over. Of eight neighbours
/// two have the same class.
fn objects_of(classes: &[u64], count: usize) -> Vec<Entry> {
    let class = |at: usize| classes[(at - at / 8) * 7919 % classes.len()];
    let object = |at: usize| match at % 3 {
        2 => Array(class(at)),
        _ => Object(class(at)),
    };
    (0..count).map(object).collect()
}

/// Returns class rows at these addresses and the objects, in an order.
fn arranged(classes: &[u64], objects: &[Entry], order: Order) -> Vec<Entry> {
    let mut entries: Vec<Entry> = classes.iter().map(|class| Class(*class)).collect();
    match order {
        Order::First => entries.extend(objects),
        Order::Last => entries.splice(0..0, objects.iter().copied()).for_each(drop),
        Order::Between => {
            let (before, after) = objects.split_at(objects.len() / 2);
            entries = [before, &entries, after].concat();
        }
        Order::InTurn => {
            for (at, object) in objects.iter().enumerate() {
                entries.insert((2 * at + 1).min(entries.len()), *object);
            }
        }
    }
    entries
}

/// Returns the index of the first object or object array whose class is missing.
fn missing_class(entries: &[Entry]) -> Option<u64> {
    let address = |entry: &Entry| match entry {
        Class(address) => Some(*address),
        _ => None,
    };
    let classes: HashSet<u64> = entries.iter().filter_map(address).collect();
    let is_missing = |entry: &Entry| match entry {
        Class(_) => false,
        Object(class) | Array(class) => !classes.contains(class),
    };
    entries
        .iter()
        .position(is_missing)
        .map(|index| index as u64)
}

/// Compares the text on both sides, with capacity enough, exact and too small by one, and returns it. Checks that it is refused if
/// and only if a class is missing, with the index of the first such row.
fn compare_text(tables: &OwnedTables, missing: Option<u64>) -> Result<String, String> {
    let query = compare::query_size(&TEXT, tables, 7)?;
    let size = match query.reply {
        reply::DONE => query.place(),
        _ => tables.text_bound(),
    };
    let expected = match missing {
        Some(index) => [reply::NO_CLASS, index],
        None => [reply::DONE, size as u64],
    };
    if query.answer[..=answer::PLACE] != expected {
        let actual = &query.answer[..=answer::PLACE];
        return Err(format!("{actual:?}, expected {expected:?}"));
    }
    let mut text = Vec::new();
    for capacity in [size - 1, size + 9, size] {
        let write = compare::write(&TEXT, tables, capacity, 11)?;
        check_query(&query, &write, capacity)?;
        text = write.out;
    }
    Ok(String::from_utf8_lossy(&text).into_owned())
}

/// Compares the text of rows as they are, and with the class word `missing` in the first, the middle or the last object. Returns
/// the text.
fn check(what: &str, entries: &[Entry], missing: u64) -> String {
    let compare = |entries: &[Entry]| {
        let done = compare_text(&tables_of(entries), missing_class(entries));
        // The rest of an error is all the tables.
        done.unwrap_or_else(|error| panic!("{what}: {}", error.lines().next().unwrap_or("")))
    };
    let is_object = |at: &usize| !matches!(entries[*at], Class(_));
    let objects: Vec<usize> = (0..entries.len()).filter(is_object).collect();
    for at in [0, objects.len() / 2, objects.len() - 1] {
        let mut entries = entries.to_vec();
        entries[objects[at]] = match entries[objects[at]] {
            Array(_) => Array(missing),
            _ => Object(missing),
        };
        compare(&entries);
    }
    compare(entries)
}

#[test]
fn as_many_rows_as_are_searched_without_an_index() {
    for rows in [63, 64, 65, 66, 67, 128] {
        for count in [1, 2, 5, 30, rows - 3] {
            let classes = classes_of(count);
            let objects = objects_of(&classes, rows - count);
            for order in ORDERS {
                let what = format!("{rows} rows, {count} classes, {order:?}");
                check(&what, &arranged(&classes, &objects, order), MISSING);
            }
        }
    }
}

#[test]
fn two_class_rows_with_one_address() {
    let (one, other) = (FIRST_CLASS, FIRST_CLASS + 256);
    for rows in [63, 64, 65, 66, 300] {
        let objects = vec![Object(one); rows - 3];
        for order in ORDERS {
            let classes = [other, one, one];
            let entries = arranged(&classes, &objects, order);
            let first = entries.iter().position(|entry| *entry == Class(one));
            let name = format!(" OBJ C{}\n", first.expect("a class row"));
            let text = check(&format!("{rows} rows, {order:?}"), &entries, MISSING);
            assert_eq!(text.matches(&name).count(), rows - 3);
        }
        // One of the two before the objects, the other after them.
        let entries = [&[Class(one)], &objects[..], &[Class(other), Class(one)]].concat();
        let text = check(&format!("{rows} rows"), &entries, MISSING);
        assert_eq!(text.matches(" OBJ C0\n").count(), rows - 3);
    }
}

#[test]
fn many_class_rows_with_one_address() {
    for count in [PROBES - 1, PROBES, PROBES + 1, 3 * PROBES] {
        let mut classes = vec![FIRST_CLASS; count];
        classes.extend([FIRST_CLASS + 256, FIRST_CLASS]);
        let objects = objects_of(&classes, 70);
        for order in ORDERS {
            let what = format!("{count} class rows, {order:?}");
            check(&what, &arranged(&classes, &objects, order), MISSING);
        }
    }
}

/// Returns `count` addresses whose bucket in a large index is `wanted`. They also have one bucket in a small index.
fn sharing(wanted: usize, count: usize) -> Vec<u64> {
    let base = (1 << 20..)
        .map(|at| 4 * at)
        .find(|base| bucket(*base, LARGE) == wanted);
    let base = base.expect("an address with this bucket");
    let addresses: Vec<u64> = (0..count as u64).map(|at| base + at * SAME_HASH).collect();
    let all_in = |size, bucket_of: usize| {
        let mut buckets = addresses.iter().map(|address| bucket(*address, size));
        buckets.all(|bucket| bucket == bucket_of)
    };
    assert!(all_in(LARGE, wanted) && all_in(SMALL, wanted / (LARGE / SMALL)));
    addresses
}

/// Checks tables with class rows at all these addresses but the last, which is missing, and with objects of all of them, in every
/// order. `size` is that of the index in which all class rows are found, if there is one.
fn check_classes(what: &str, addresses: &[u64], size: Option<usize>) {
    let (missing, classes) = addresses.split_last().expect("the address that is missing");
    assert_eq!(passed_buckets(classes).map(|(size, _)| size), size);
    let objects = objects_of(classes, 70 + 2 * classes.len());
    for order in ORDERS {
        let entries = arranged(classes, &objects, order);
        check(&format!("{what}, {order:?}"), &entries, *missing);
    }
}

#[test]
fn class_rows_that_share_a_bucket() {
    for wanted in [0, 1, 70_000, LARGE - PROBES, LARGE - 1] {
        for count in [2, 3, 10, 33, 63, 64, 65, 66, 100, 200] {
            let what = format!("{count} classes in bucket {wanted}");
            let size = (count <= PROBES).then_some(SMALL);
            check_classes(&what, &sharing(wanted, count + 1), size);
        }
    }
}

#[test]
fn class_rows_that_crowd_neighbouring_buckets() {
    // Buckets 500 and 501 of a large index are one of a small index.
    for (counts, size) in [
        ([32, 32], Some(SMALL)),
        ([1, 64], Some(LARGE)),
        ([40, 40], None),
    ] {
        let [one, two] = counts;
        let addresses = [sharing(500, one), sharing(501, two + 1)].concat();
        check_classes(&format!("{counts:?} classes"), &addresses, size);
    }
    // At the end of the index, where no other search begins.
    for (two, size) in [(1, Some(LARGE)), (2, None)] {
        let addresses = [sharing(LARGE - 1, two), sharing(LARGE - 2, 64 + 1)].concat();
        check_classes(&format!("64 and {two} classes"), &addresses, size);
    }
}

#[test]
fn more_class_rows_than_buckets() {
    for (count, size) in [(5_000, Some(SMALL)), (50_000, Some(LARGE)), (140_000, None)] {
        let classes = classes_of(count);
        assert_eq!(passed_buckets(&classes).map(|(size, _)| size), size);
        let objects = objects_of(&classes, 30);
        for order in [Order::First, Order::Last] {
            let entries = arranged(&classes, &objects, order);
            check(&format!("{count} classes, {order:?}"), &entries, MISSING);
        }
    }
}
