//! The answer: the 16 numbers that every operation fills, by their places. Numbers that an operation does not use are 0. A write,
//! a text and a size query use only the first two.

use crate::tables::Header;

/// The 16 numbers of an answer.
pub type Answer = [u64; 16];

/// The reply, one of `crate::reply`.
pub const REPLY: usize = 0;
/// The place (01's term) that the reply is about: a byte of the dump, a row, or how many bytes the output has.
pub const PLACE: usize = 1;
/// How many rows were stored.
pub const ROWS: usize = 2;
/// How many references were stored.
pub const REFS: usize = 3;
/// W (01's term), the width of addresses: 32 or 64. It is 0 if the header was not read completely; then the other header numbers are 0 too.
pub const BITS: usize = 4;
pub const ALL_HASHED: usize = 5;
pub const OPENJ9: usize = 6;
/// Whether the header has a VM string.
pub const VM_PRESENT: usize = 7;
pub const VM_PLACE: usize = 8;
pub const VM_LENGTH: usize = 9;
/// The missing bytes (01's term) of a cut dump: how many more the field needs in which the dump ends.
pub const MISSING: usize = 10;
/// How many entries of the list of class summaries are in use, 0 of a read without that list.
pub const CLASSES: usize = 11;
/// The numbers from this place on are always 0.
pub const UNUSED: usize = 12;

/// Returns the header of an answer, in the form in which it is written again with the dump as the name bytes.
pub fn header(answer: &Answer) -> Header {
    [
        answer[BITS],
        answer[ALL_HASHED],
        answer[OPENJ9],
        answer[VM_PRESENT],
        answer[VM_PLACE],
        answer[VM_LENGTH],
    ]
}
