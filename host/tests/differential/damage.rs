//! Generates damaged dumps: a few edits of a dump, most of them where a reader checks something.

use crate::encode::{Encoded, OPENING};
use crate::rng::Rng;

/// Bytes that have a meaning for a reader.
const BYTES: [u8; 18] = [
    0, 1, 2, 3, 4, 5, 6, 7, 8, 0x20, 0x21, 0x3F, 0x40, 0x7E, 0x7F, 0x80, 0xA0, 0xFF,
];

/// The places of the header's version, of its flags, of its first tag, and of what follows.
const VERSION: usize = 20;
const FLAGS: usize = 24;
const TAG: usize = 28;
const RECORDS: usize = 29;

/// Returns the dump with one to eight edits, rarely more than three, and the place of the last. Some are cut soon after that, which
/// shows what a reader checks first.
pub fn damaged(rng: &mut Rng, encoded: &Encoded) -> (Vec<u8>, usize) {
    let mut bytes = encoded.bytes.clone();
    let edits = match rng.below(8) {
        0..=4 => 1,
        5..=6 => 2 + rng.below(2),
        _ => 1 + rng.below(8),
    };
    let mut place = 0;
    for _ in 0..edits {
        let done = match rng.below(16) {
            0..=3 => edit_anywhere(rng, &mut bytes),
            4..=7 => edit_record(rng, &mut bytes, encoded),
            8 => edit_header(rng, &mut bytes),
            9 => edit_order(rng, &mut bytes, encoded),
            _ => edit_field(rng, &mut bytes, encoded),
        };
        place = done.unwrap_or(place);
    }
    if rng.one_in(4) {
        bytes.truncate(place + rng.index(10));
    }
    (bytes, place)
}

/// Returns a byte, usually one that has a meaning.
fn byte(rng: &mut Rng) -> u8 {
    let any = rng.any() as u8;
    if rng.one_in(3) {
        any
    } else {
        rng.pick(&BYTES)
    }
}

/// Edits any place, and returns it.
fn edit_anywhere(rng: &mut Rng, bytes: &mut Vec<u8>) -> Option<usize> {
    if bytes.is_empty() {
        return None;
    }
    let place = rng.index(bytes.len());
    let to = (place + 1 + rng.index(8)).min(bytes.len());
    match rng.below(6) {
        0 => bytes[place] ^= 1 << rng.below(8),
        1 => bytes[place] = byte(rng),
        2 => bytes.insert(place, byte(rng)),
        3 => drop(bytes.drain(place..to)),
        4 => bytes.truncate(place),
        _ => {
            let run = bytes[place..to].to_vec();
            bytes.splice(place..place, run);
        }
    }
    Some(place)
}

/// Changes the tag or the flag byte of a record.
fn edit_record(rng: &mut Rng, bytes: &mut [u8], encoded: &Encoded) -> Option<usize> {
    let place = rng.pick(&encoded.starts);
    let [tag, flags, ..] = bytes.get_mut(place..)? else {
        return None;
    };
    match rng.below(6) {
        0 => *tag = byte(rng),
        1 => *tag ^= 1 << rng.below(8),
        2 => *tag = 0x80 | rng.any() as u8,
        3 => *flags ^= 1 << rng.below(8),
        4 => *flags |= rng.pick(&[1, 2, 3, 8]),
        _ => *tag = rng.pick(&[0, 1, 2, 3, 5, 9, 0x0A, 0x10, 0x1F]),
    }
    Some(place)
}

/// Changes the number in a field, usually to a boundary value of some width.
fn edit_field(rng: &mut Rng, bytes: &mut [u8], encoded: &Encoded) -> Option<usize> {
    if encoded.fields.is_empty() {
        return None;
    }
    let field = &encoded.fields[rng.index(encoded.fields.len())];
    let target = bytes.get_mut(field.place..field.place + field.width)?;
    let any = rng.any() as i64;
    let boundary = 1i64 << rng.pick(&[7, 8, 15, 16, 29, 30, 31, 32, 60, 61, 62, 63]);
    let value = match rng.below(6) {
        0 => rng.pick(&[0, 0, 1, 2, 3]),
        1 => -1 - rng.pick(&[0, 1, 2]),
        2 => boundary.wrapping_add(rng.pick(&[-1, 0, 1])),
        3 => boundary.wrapping_neg().wrapping_add(rng.pick(&[-1, 0, 1])),
        4 => field.zero.wrapping_add(rng.pick(&[-1, 0, 0, 0, 0, 1])),
        _ => any,
    };
    target.copy_from_slice(&value.to_be_bytes()[8 - field.width..]);
    Some(field.place)
}

/// Swaps two neighbouring records, repeats one, or removes one.
fn edit_order(rng: &mut Rng, bytes: &mut Vec<u8>, encoded: &Encoded) -> Option<usize> {
    if encoded.starts.len() < 3 {
        return None;
    }
    let first = rng.index(encoded.starts.len() - 2);
    let ends = &encoded.starts[first..first + 3];
    if ends[2] > bytes.len() {
        return None;
    }
    match rng.below(4) {
        0 => drop(bytes.drain(ends[0]..ends[1])),
        1 => {
            let again = bytes[ends[0]..ends[1]].to_vec();
            bytes.splice(ends[2]..ends[2], again);
        }
        _ => bytes[ends[0]..ends[2]].rotate_left(ends[1] - ends[0]),
    }
    Some(ends[0])
}

/// Changes the header: its opening, version, flags, tags or VM string.
fn edit_header(rng: &mut Rng, bytes: &mut Vec<u8>) -> Option<usize> {
    if bytes.len() < RECORDS + 2 {
        return None;
    }
    let place = match rng.below(7) {
        0 => rng.index(2),
        1 => 2 + rng.index(18),
        2 => VERSION + rng.index(4),
        3 => FLAGS + rng.pick(&[0, 1, 2, 3, 3, 3]),
        4 => TAG,
        5 => RECORDS + rng.index(2),
        _ => {
            second_vm(rng, bytes);
            return Some(RECORDS);
        }
    };
    if rng.one_in(2) {
        bytes[place] = byte(rng);
    } else {
        bytes[place] ^= 1 << rng.below(8);
    }
    Some(place)
}

/// Inserts another VM string, sometimes with a byte that is not allowed.
fn second_vm(rng: &mut Rng, bytes: &mut Vec<u8>) {
    let length = rng.below(3) as u8;
    let mut more = vec![4, 0, length];
    for _ in 0..length {
        more.push(rng.pick(&[0x20, 0x41, 0x7E, 0x7E, 0x1F, 0x7F, 0x80]));
    }
    bytes.splice(RECORDS..RECORDS, more);
}

/// Returns a good header followed by random bytes, most of them likely to form records.
pub fn random(rng: &mut Rng) -> Vec<u8> {
    let mut bytes = OPENING.to_vec();
    bytes.extend([0, 0, 0, rng.below(8) as u8, 1]);
    if rng.one_in(2) {
        bytes.extend([4, 0, 1, 0x41]);
    }
    bytes.extend([2, 2]);
    let count = rng.index(120);
    let tags = [4, 6, 7, 8, 0x20, 0x24, 0x40, 0x48, 0x49, 0x80, 0x88, 0xA0];
    let small = 1 + rng.below(64);
    let any_interval = 1 + rng.below(8);
    for _ in 0..count {
        bytes.push(match rng.below(4) {
            0 => rng.pick(&tags),
            1 if rng.one_in(any_interval) => rng.any() as u8,
            _ => rng.below(small) as u8,
        });
    }
    if rng.one_in(4) {
        bytes.push(3);
    }
    bytes
}
