//! Generates mutated tables, which are good ones with a few changes, and garbage tables, which are random numbers.

use crate::rng::Rng;
use crate::tables::*;

/// Boundary values of the numbers of a row.
const NUMBERS: [u64; 22] = [
    0,
    1,
    2,
    3,
    4,
    5,
    7,
    8,
    0xFFFF,
    0x1_0000,
    0x7FFF_FFFF,
    0x8000_0000,
    0xFFFF_FFFC,
    0xFFFF_FFFF,
    0x1_0000_0000,
    0x1_0000_0004,
    1 << 62,
    1 << 63,
    u64::MAX - 7,
    u64::MAX - 3,
    u64::MAX - 1,
    u64::MAX,
];

/// Returns the tables with one to three changes. Sometimes they are still good.
pub fn mutated(rng: &mut Rng, good: &OwnedTables) -> OwnedTables {
    let mut tables = good.clone();
    for _ in 0..rng.pick(&[1, 1, 1, 2, 3]) {
        match rng.below(16) {
            0..=7 => change_row(rng, &mut tables),
            8..=9 => change_ref(rng, &mut tables),
            10..=11 => change_header(rng, &mut tables),
            12 => change_name_place(rng, &mut tables),
            13 => change_name_byte(rng, &mut tables),
            _ => change_shape(rng, &mut tables),
        }
    }
    tables
}

/// Returns tables of random numbers.
pub fn garbage(rng: &mut Rng) -> OwnedTables {
    let numbers = |rng: &mut Rng, count: usize| -> Vec<u64> {
        (0..count).map(|_| other(rng, 0, 9)).collect()
    };
    let (rows, refs) = (rng.index(ROW_LEN * 5), rng.index(9));
    let mut tables = OwnedTables {
        header: [0; 6].map(|_| other(rng, 1, 4)),
        rows: numbers(rng, rows),
        refs: numbers(rng, refs),
        names: b"[CA\x20".to_vec(),
    };
    tables.header[header::BITS] = rng.pick(&[32, 32, 64, 64, 0, 63]);
    for row in tables.rows.chunks_exact_mut(ROW_LEN) {
        row[KIND] = rng.below(6);
        row[ADDRESS] &= !3;
        for at in [FIRST, COUNT, HASH_KIND, HASH, NAME_PLACE, LENGTH, TYPE] {
            row[at] = if rng.one_in(9) { row[at] } else { 0 };
        }
        row[NAME_LENGTH] = rng.pick(&[0, 1, 2, row[NAME_LENGTH]]);
    }
    tables
}

/// Returns another number instead of `old`; `limit` is a boundary value of such numbers.
fn other(rng: &mut Rng, old: u64, limit: u64) -> u64 {
    match rng.below(8) {
        0 => old.wrapping_add(1),
        1 => old.wrapping_sub(1),
        2 => old ^ (1 << rng.below(64)),
        3..=4 => limit.wrapping_add(rng.below(3)).wrapping_sub(1),
        5 => rng.any(),
        _ => rng.pick(&NUMBERS),
    }
}

/// Changes a number of a row.
fn change_row(rng: &mut Rng, tables: &mut OwnedTables) {
    if tables.rows.is_empty() {
        return;
    }
    let at = rng.index(tables.rows.len());
    let limit = match at % ROW_LEN {
        KIND => 5,
        ADDRESS | CLASS => 1 << 32,
        HASH_KIND => 3,
        HASH => rng.pick(&[1 << 16, 1 << 32]),
        SIZE => rng.pick(&[1 << 31, 1 << 32]),
        LENGTH => 1 << 31,
        NAME_PLACE | NAME_LENGTH => tables.names.len() as u64,
        TYPE => 8,
        _ => tables.refs.len() as u64,
    };
    tables.rows[at] = other(rng, tables.rows[at], limit);
}

/// Changes a reference.
fn change_ref(rng: &mut Rng, tables: &mut OwnedTables) {
    if !tables.refs.is_empty() {
        let at = rng.index(tables.refs.len());
        tables.refs[at] = other(rng, tables.refs[at], 0);
    }
}

/// Changes the header.
fn change_header(rng: &mut Rng, tables: &mut OwnedTables) {
    let end = tables.names.len() as u64;
    match rng.below(6) {
        0 => {
            tables.header[header::BITS] = rng.pick(&[0, 31, 33, 63, 65, 32, 64, 96, (1 << 32) + 32])
        }
        1 => tables.header[header::ALL_HASHED] = rng.pick(&[0, 1, 2]),
        2 => tables.header[header::VM_PRESENT] = rng.pick(&[0, 1, 2]),
        3 => {
            let length = rng.below(end + 2);
            tables.header[header::VM_PLACE] = (end - length.min(end)).wrapping_add(rng.below(2));
            tables.header[header::VM_LENGTH] = length;
        }
        4 => {
            tables.header[header::VM_PLACE] = rng.below(3).wrapping_neg();
            tables.header[header::VM_LENGTH] = rng.pick(&[0, 1, 2, 3, 4, u64::MAX]);
        }
        _ => {
            let at = header::VM_PLACE + rng.index(2);
            tables.header[at] = other(rng, tables.header[at], end);
        }
    }
}

/// Changes the place and length of a class name or of the VM string: close to the end of the name bytes, past it, or longer than
/// a string can be.
fn change_name_place(rng: &mut Rng, tables: &mut OwnedTables) {
    let end = tables.names.len() as u64;
    let (place, length) = match rng.below(12) {
        0..=5 => {
            let length = 1 + rng.below(4);
            let place = end.wrapping_sub(length).wrapping_add(rng.below(2));
            (place, length)
        }
        6..=10 => (rng.below(3).wrapping_neg(), rng.below(6)),
        _ => {
            tables.names.resize(tables.names.len() + 65_537, b'n');
            (end, rng.pick(&[65_534, 65_535, 65_536, 65_537]))
        }
    };
    match class_row(rng, tables) {
        Some(at) if !rng.one_in(4) => {
            tables.rows[at * ROW_LEN + NAME_PLACE] = place;
            tables.rows[at * ROW_LEN + NAME_LENGTH] = length;
        }
        _ => tables.header[header::VM_PRESENT..].copy_from_slice(&[1, place, length]),
    }
}

/// Changes a byte of a name or of the VM string.
fn change_name_byte(rng: &mut Rng, tables: &mut OwnedTables) {
    let (place, length) = match class_row(rng, tables) {
        Some(at) if !rng.one_in(3) => (tables.row(at)[NAME_PLACE], tables.row(at)[NAME_LENGTH]),
        _ => (
            tables.header[header::VM_PLACE],
            tables.header[header::VM_LENGTH],
        ),
    };
    let within = rng.below(length.clamp(1, 300));
    if let Some(byte) = tables.names.get_mut(place.wrapping_add(within) as usize) {
        *byte = rng.pick(&[0, 0x1F, 0x20, 0x21, 0x5B, 0x7E, 0x7F, 0x80, 0xFF]);
    }
}

/// Chooses a class row.
fn class_row(rng: &mut Rng, tables: &OwnedTables) -> Option<usize> {
    let is_class = |at: &usize| tables.row(*at)[KIND] == kind::CLASS;
    let classes: Vec<usize> = (0..tables.count()).filter(is_class).collect();
    (!classes.is_empty()).then(|| rng.pick(&classes))
}

/// Shortens a table or the name bytes, or swaps two rows.
fn change_shape(rng: &mut Rng, tables: &mut OwnedTables) {
    let less = rng.pick(&[1, 1, 1, 2, 13, 40]);
    match rng.below(6) {
        0 => tables.refs.truncate(tables.refs.len().saturating_sub(less)),
        1 => tables
            .names
            .truncate(tables.names.len().saturating_sub(less)),
        2 => tables.rows.truncate(tables.rows.len().saturating_sub(less)),
        3 => tables
            .rows
            .drain(..less.min(tables.rows.len()))
            .for_each(drop),
        _ if tables.count() > 1 => {
            let (first, second) = (rng.index(tables.count()), rng.index(tables.count()));
            for at in 0..ROW_LEN {
                tables
                    .rows
                    .swap(first * ROW_LEN + at, second * ROW_LEN + at);
            }
        }
        _ => tables.refs.clear(),
    }
}
