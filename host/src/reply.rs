//! The replies (a term of the scope paper, 01) by name. `include/phd.h` and docs/FORMAT.md 8 define what each means and which place comes with it.

/// Everything was read or written; of a size query: it can be written.
pub const DONE: u64 = 0;
/// The dump is cut off.
pub const CUT: u64 = 1;
/// The dump is longer than 1,073,741,824 bytes.
pub const OVER_LIMIT: u64 = 2;
/// The file does not begin with the words of a portable heap dump.
pub const NO_DUMP: u64 = 3;
pub const BAD_VERSION: u64 = 4;
pub const BAD_FLAG: u64 = 5;
pub const BAD_TAG: u64 = 6;
/// A string has a byte that is not allowed, a class has no name, or there is a second VM string.
pub const BAD_STRING: u64 = 7;
/// An address or a reference is outside the memory that W allows.
pub const OUT_OF_RANGE: u64 = 8;
pub const NULL_REF: u64 = 9;
/// An object names its class by a slot of the cache that is still empty.
pub const EMPTY_SLOT: u64 = 10;
/// A record has hash bits although all objects are hashed.
pub const HASH_BITS: u64 = 11;
/// A count, a length or the instance size of a class is out of range.
pub const BAD_COUNT: u64 = 12;
/// The table of rows is full.
pub const NO_ROW: u64 = 13;
/// The table of references has too little capacity for this record.
pub const NO_REFS: u64 = 14;
/// The header cannot be written, or a table is longer than a writer accepts.
pub const BAD_HEADER: u64 = 15;
pub const BAD_ROW: u64 = 16;
/// The output buffer is too small, or the dump would be longer than the limit.
pub const NO_OUTPUT: u64 = 17;
/// Of a text: the class of a row is not among the rows.
pub const NO_CLASS: u64 = 18;
/// The list of class summaries has no entry left for this record.
pub const NO_ENTRY: u64 = 20;
