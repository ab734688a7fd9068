//! A row (a term of the scope paper, 01) is thirteen numbers, one record of a dump. Here are their places, and the values of its
//! kind and its hash kind (docs/FORMAT.md 4.1).

/// The kind, one of `kind`.
pub const KIND: usize = 0;
pub const ADDRESS: usize = 1;
/// The class word (01's term): the address of the class, and of a class that of its superclass.
pub const CLASS: usize = 2;
/// The hash kind, one of `hash_kind`.
pub const HASH_KIND: usize = 3;
pub const HASH: usize = 4;
/// The index of the first reference in the table of references.
pub const FIRST: usize = 5;
/// How many references the record has.
pub const COUNT: usize = 6;
/// The size: of an array in 32-bit words, of a class that of its instances in bytes.
pub const SIZE: usize = 7;
/// How many elements an array has.
pub const LENGTH: usize = 8;
/// Where the name of a class is in the dump or in the name bytes.
pub const NAME_PLACE: usize = 9;
pub const NAME_LENGTH: usize = 10;
/// The element type of a primitive array, 0 to 7.
pub const TYPE: usize = 11;
/// Where the record's tag is in the dump from which it was read.
pub const OFFSET: usize = 12;

/// How many numbers make a row.
pub const ROW_LEN: usize = 13;

/// The kinds of rows.
pub mod kind {
    pub const CLASS: u64 = 1;
    pub const OBJECT: u64 = 2;
    pub const OBJECT_ARRAY: u64 = 3;
    pub const PRIMITIVE_ARRAY: u64 = 4;
}

/// The kinds of hashes.
pub mod hash_kind {
    pub const NONE: u64 = 0;
    /// Hashed, but no hash is stored.
    pub const HASHED: u64 = 1;
    /// A 32-bit hash.
    pub const INT: u64 = 2;
    /// A 16-bit hash.
    pub const SHORT: u64 = 3;
}
