//! Generates good tables for class summaries: class rows before, after and between the objects of their class, twice with one
//! address, or missing; objects and object arrays of one class word; class words that are as small as a primitive type, and class
//! words that may have the same hash.

use crate::class_index::SAME_HASH;
use crate::rng::Rng;
use crate::tables::*;

/// A row: a class row at an address, an object or object array by its class word, or a primitive array by its type.
#[derive(Clone, Copy, Debug, PartialEq)]
pub enum Entry {
    Class(u64),
    Object(u64),
    Array(u64),
    Primitive(u64),
}
use Entry::{Array, Class, Object, Primitive};

/// Where the class rows are: before all other rows, after them, between them, or anywhere.
#[derive(Clone, Copy, Debug)]
pub enum Order {
    First,
    Last,
    Between,
    Anywhere,
}
pub const ORDERS: [Order; 4] = [Order::First, Order::Last, Order::Between, Order::Anywhere];

/// Returns tables with about so many rows besides the class rows.
pub fn tables(rng: &mut Rng, count: usize) -> OwnedTables {
    let wide = rng.one_in(2);
    let words = words(rng, wide);
    let mut classes = Vec::new();
    for word in &words {
        // A class row's address is a multiple of four.
        if word % 4 == 0 && !rng.one_in(4) {
            classes.push(Class(*word));
            if rng.one_in(4) {
                classes.push(Class(*word));
            }
        }
    }
    let others: Vec<Entry> = (0..count).map(|_| other(rng, &words)).collect();
    let order = rng.pick(&ORDERS);
    tables_of(&arranged(rng, &classes, &others, order), wide, rng)
}

/// Returns the class words that rows may have.
fn words(rng: &mut Rng, wide: bool) -> Vec<u64> {
    let max = if wide { u64::MAX } else { 0xFFFF_FFFF };
    let base = rng.any() & max / 2 & !3;
    let many = 1 + rng.below(12);
    let apart = rng.pick(&[4, 8, 256, 1 << 14, 1 << 16, 1 << 17, 1 << 27]);
    let word = |at: u64, rng: &mut Rng| match rng.below(8) {
        0..=2 => rng.below(9),
        3..=5 if wide => base + at * SAME_HASH,
        6 => rng.pick(&[0, 4, max, max - 3]),
        _ => base + at * apart,
    };
    (0..many).map(|at| word(at, rng)).collect()
}

/// Returns a row that is no class row.
fn other(rng: &mut Rng, words: &[u64]) -> Entry {
    match rng.below(8) {
        0..=3 => Object(rng.pick(words)),
        4..=5 => Array(rng.pick(words)),
        _ => Primitive(rng.below(8)),
    }
}

/// Returns the class rows and the other rows in an order.
pub fn arranged(rng: &mut Rng, classes: &[Entry], others: &[Entry], order: Order) -> Vec<Entry> {
    match order {
        Order::First => [classes, others].concat(),
        Order::Last => [others, classes].concat(),
        Order::Between => {
            let (before, after) = others.split_at(others.len() / 2);
            [before, classes, after].concat()
        }
        Order::Anywhere => {
            let mut all = [classes, others].concat();
            for index in (1..all.len()).rev() {
                all.swap(index, rng.index(index + 1));
            }
            all
        }
    }
}

/// Returns the tables of these rows, with random sizes, lengths and references. All class rows have the same name.
pub fn tables_of(entries: &[Entry], wide: bool, rng: &mut Rng) -> OwnedTables {
    let mut tables = OwnedTables {
        header: [if wide { 64 } else { 32 }, 0, 1, 0, 0, 0],
        rows: Vec::with_capacity(entries.len() * ROW_LEN),
        refs: Vec::new(),
        names: b"C".to_vec(),
    };
    let mut address = 4 * rng.below(1000);
    for entry in entries {
        address += 4 * rng.below(9);
        let mut row: Row = [0; ROW_LEN];
        row[ADDRESS] = address;
        row[FIRST] = tables.refs.len() as u64;
        row[COUNT] = rng.pick(&[0, 0, 1, 2, 3, 9]);
        let size = rng.below(200);
        let size = rng.pick(&[size, size, size, 0, 0x7FFF_FFFF]);
        match *entry {
            Class(word) => {
                (row[KIND], row[ADDRESS], row[SIZE]) = (kind::CLASS, word, size);
                row[NAME_LENGTH] = 1;
            }
            Object(word) => (row[KIND], row[CLASS]) = (kind::OBJECT, word),
            Array(word) => {
                (row[KIND], row[CLASS], row[SIZE]) = (kind::OBJECT_ARRAY, word, size);
                row[LENGTH] = row[COUNT] + rng.below(3);
            }
            Primitive(primitive) => {
                (row[KIND], row[SIZE], row[COUNT]) = (kind::PRIMITIVE_ARRAY, size, 0);
                (row[TYPE], row[LENGTH]) = (primitive, rng.below(300));
            }
        }
        let near = |_| 4 + 4 * rng.below(2000);
        tables.refs.extend((0..row[COUNT]).map(near));
        tables.rows.extend(row);
    }
    tables
}
