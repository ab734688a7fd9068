//! Generates random name bytes: VM strings and class names, with unused bytes between them.

use crate::rng::Rng;
use crate::tables::Header;

/// Names that a text treats specially, and some that only look like them.
const SPECIAL: [&str; 16] = [
    "[Z", "[C", "[F", "[D", "[B", "[S", "[I", "[J", "[C", "[CC", "[", "C", "[[I", "[LA;", "A", "!~",
];

/// Returns a header without its W, and appends a VM string to the name bytes.
pub fn header(rng: &mut Rng, names: &mut Vec<u8>) -> Header {
    let hashed = rng.one_in(4);
    let (openj9, vm) = (rng.one_in(2), !rng.one_in(3));
    let flags = [flag(rng, hashed), flag(rng, openj9), flag(rng, vm)];
    let (place, length) = if vm {
        let length = rng.pick(&[0, 1, 2, 4, 20, 300]);
        (append(rng, names, 0x20, length), length as u64)
    } else {
        (rng.any(), rng.any())
    };
    [0, flags[0], flags[1], flags[2], place, length]
}

/// Returns the number of a flag; any but 0 sets it.
fn flag(rng: &mut Rng, set: bool) -> u64 {
    let any = rng.any() | 1;
    let set_by = rng.pick(&[1, 1, 1, 2, 1 << 32, u64::MAX, any]);
    if set {
        set_by
    } else {
        0
    }
}

/// Appends some class names, and returns their places and lengths. Some may be equal.
pub fn pool(rng: &mut Rng, names: &mut Vec<u8>, large: bool) -> Vec<(u64, u64)> {
    let mut pool = Vec::new();
    for _ in 0..1 + rng.below(6) {
        let unused = rng.index(3);
        names.extend(rng.bytes(unused));
        let place = names.len() as u64;
        match rng.below(3) {
            0 => names.extend(rng.pick(&SPECIAL).bytes()),
            1 => names.extend(format!("java/lang/C{}", rng.below(4)).bytes()),
            _ => {
                if rng.one_in(4) {
                    names.push(b'[');
                }
                let length = 1 + rng.index(12);
                append(rng, names, 0x21, length);
            }
        }
        pool.push((place, names.len() as u64 - place));
    }
    if !large && rng.one_in(200) {
        let length = rng.pick(&[127, 128, 255, 256, 257, 32_767, 32_768, 65_534, 65_535]);
        pool.push((append(rng, names, 0x21, length), length as u64));
    }
    let unused = rng.index(3);
    names.extend(rng.bytes(unused));
    pool
}

/// Appends bytes from `low` to 0x7E, often one of these two, and returns their place.
fn append(rng: &mut Rng, names: &mut Vec<u8>, low: u8, length: usize) -> u64 {
    let place = names.len() as u64;
    let many = u64::from(0x7F - low);
    for _ in 0..length {
        let byte = low + rng.below(many) as u8;
        names.push(rng.pick(&[byte, byte, byte, byte, byte, byte, low, 0x7E]));
    }
    place
}
