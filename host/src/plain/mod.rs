//! Plain Rust: an independent implementation of the format, written from the scope paper (01) and its change requests alone. The
//! tests compare it with the proved library.
//!
//! From the rest of this crate it takes only `Tables` and `Summary`, the shapes of the arguments, and `WordMap`, a hash map. The
//! names of the replies, of a row's numbers, of the marks of entries and of the places of an answer are its own.

mod answer;
mod buffers;
mod check;
mod cursor;
mod read;
mod summaries;
#[cfg(test)]
mod tests;
mod text;
mod write;

use crate::summary::Summary;
use crate::tables::Tables;
use answer::Answer;
use buffers::Buffers;
use check::CheckedTables;
use std::ops::Range;

/// How many numbers make a row.
pub const ROW_LEN: usize = 13;

/// The most bytes a dump may have.
const DUMP_LIMIT: usize = 1 << 30;
/// The most rows, and the most references, that a writer accepts.
const TABLE_LIMIT: usize = 1 << 30;
/// The largest count, length or instance size of a class.
const COUNT_LIMIT: u64 = i32::MAX as u64;
/// The string that opens a dump.
const OPENING: &[u8; 18] = b"portable heap dump";

/// The kinds of rows.
const CLASS: u64 = 1;
const OBJECT: u64 = 2;
const OBJECT_ARRAY: u64 = 3;
const PRIMITIVE_ARRAY: u64 = 4;

/// The kinds of hashes.
const NO_HASH: u64 = 0;
const HASHED: u64 = 1;
const INT_HASH: u64 = 2;
const SHORT_HASH: u64 = 3;

/// The numbered replies.
#[derive(Clone, Copy, Debug, PartialEq, Eq)]
#[repr(u64)]
enum Reply {
    Done = 0,
    Cut = 1,
    OverLimit = 2,
    NoDump = 3,
    BadVersion = 4,
    BadFlag = 5,
    BadTag = 6,
    BadString = 7,
    OutOfRange = 8,
    NullRef = 9,
    EmptySlot = 10,
    HashBits = 11,
    BadCount = 12,
    NoRow = 13,
    NoRefs = 14,
    BadHeader = 15,
    BadRow = 16,
    NoOutput = 17,
    NoClass = 18,
    NoEntry = 20,
}

/// A refusal and its place (01's term).
type Stop = (Reply, u64);

/// Reads a dump into the tables of rows and references and the list of class summaries, and returns the reply.
pub fn read(
    dump: &[u8],
    rows: &mut [u64],
    refs: &mut [u64],
    classes: &mut [Summary],
    answer: &mut Answer,
) -> u64 {
    read_into(dump, Buffers::new(rows, refs, Some(classes)), answer)
}

/// Reads a dump into the tables of rows and references, and returns the reply.
pub fn read_tables(dump: &[u8], rows: &mut [u64], refs: &mut [u64], answer: &mut Answer) -> u64 {
    read_into(dump, Buffers::new(rows, refs, None), answer)
}

/// Reads a dump into the buffers and fills the answer.
fn read_into(dump: &[u8], buffers: Buffers, answer: &mut Answer) -> u64 {
    *answer = answer::of_read(read::read(dump, buffers));
    answer[answer::REPLY]
}

/// Computes how many bytes the tables take as a dump, and returns the reply.
pub fn write_size(tables: &Tables, answer: &mut Answer) -> u64 {
    check_and(tables, write::size, answer)
}

/// Writes the tables as a dump and returns the reply.
pub fn write(tables: &Tables, out: &mut [u8], answer: &mut Answer) -> u64 {
    check_and(tables, |tables| write::write(tables, out), answer)
}

/// Computes how many bytes the tables take as classic text, and returns the reply.
pub fn text_size(tables: &Tables, answer: &mut Answer) -> u64 {
    check_and(tables, text::size, answer)
}

/// Writes the tables as classic text and returns the reply.
pub fn text(tables: &Tables, out: &mut [u8], answer: &mut Answer) -> u64 {
    check_and(tables, |tables| text::text(tables, out), answer)
}

/// Checks the tables, does the work if they are good, and fills the answer.
fn check_and(
    tables: &Tables,
    work: impl FnOnce(&CheckedTables) -> Result<usize, Stop>,
    answer: &mut Answer,
) -> u64 {
    let size = CheckedTables::check(tables).and_then(|checked| work(&checked));
    *answer = answer::of_size(size);
    answer[answer::REPLY]
}

/// A header, read or checked.
struct Header {
    /// W, 32 or 64.
    bits: u64,
    all_hashed: bool,
    openj9: bool,
    /// Where the VM string is, in the dump or in the name bytes.
    vm: Option<Range<usize>>,
}

impl Header {
    /// Returns the header that the six numbers state, or nothing if it is bad.
    fn check(numbers: &[u64; 6], names: &[u8]) -> Option<Header> {
        let [bits, all_hashed, openj9, vm_present, vm_place, vm_length] = *numbers;
        if bits != 32 && bits != 64 {
            return None;
        }
        let vm = if vm_present != 0 {
            let range = range(vm_place, vm_length, names.len())?;
            if range.len() > usize::from(u16::MAX) || !is_vm_string(&names[range.clone()]) {
                return None;
            }
            Some(range)
        } else {
            None
        };
        Some(Header {
            bits,
            all_hashed: all_hashed != 0,
            openj9: openj9 != 0,
            vm,
        })
    }

    /// Returns the largest number of W bits.
    fn max_number(&self) -> u64 {
        u64::MAX >> (64 - self.bits)
    }

    /// Returns the width code of a number of W bits: int or long.
    fn bits_code(&self) -> u8 {
        if self.bits == 64 {
            3
        } else {
            2
        }
    }
}

/// The class cache (01's term): the classes of the last medium and long objects, in four slots that are filled in turn.
#[derive(Default)]
struct Cache {
    slots: [u64; 4],
    /// How many classes were ever pushed.
    pushes: usize,
}

impl Cache {
    /// Stores a class in the next slot.
    fn push(&mut self, class: u64) {
        self.slots[self.pushes % 4] = class;
        self.pushes += 1;
    }

    /// Returns the slots filled so far.
    fn filled(&self) -> &[u64] {
        &self.slots[..self.pushes.min(4)]
    }

    /// Returns the class in a slot, if it is filled.
    fn class(&self, slot: usize) -> Option<u64> {
        self.filled().get(slot).copied()
    }

    /// Returns the lowest filled slot that holds a class.
    fn slot(&self, class: u64) -> Option<usize> {
        self.filled().iter().position(|&held| held == class)
    }
}

/// The numbers of a row by name. The offset is left out: writing and text ignore it.
struct Row {
    kind: u64,
    address: u64,
    class: u64,
    hash_kind: u64,
    hash: u64,
    first: u64,
    count: u64,
    size: u64,
    length: u64,
    name_place: u64,
    name_length: u64,
    primitive: u64,
}

impl From<&[u64; ROW_LEN]> for Row {
    /// Names the numbers of a row.
    fn from(numbers: &[u64; ROW_LEN]) -> Row {
        let [kind, address, class, hash_kind, hash, first, count, size, length, name_place, name_length, primitive, _offset] =
            *numbers;
        Row {
            kind,
            address,
            class,
            hash_kind,
            hash,
            first,
            count,
            size,
            length,
            name_place,
            name_length,
            primitive,
        }
    }
}

/// Returns the range of `length` elements from `place` on, if it ends within `within` elements.
fn range(place: u64, length: u64, within: usize) -> Option<Range<usize>> {
    let end = place.checked_add(length)?;
    (end <= within as u64).then_some(place as usize..end as usize)
}

/// Returns whether all bytes are allowed in a VM string.
fn is_vm_string(bytes: &[u8]) -> bool {
    bytes.iter().all(|byte| (0x20..=0x7E).contains(byte))
}

/// Returns whether all bytes are allowed in a class name.
fn is_class_name(bytes: &[u8]) -> bool {
    bytes.iter().all(|byte| (0x21..=0x7E).contains(byte))
}

/// Returns a function that appends bytes to the output, which must have the capacity for them.
fn appender(out: &mut [u8]) -> impl FnMut(&[u8]) + use<'_> {
    let mut at = 0;
    move |bytes| {
        out[at..at + bytes.len()].copy_from_slice(bytes);
        at += bytes.len();
    }
}
