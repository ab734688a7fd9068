//! A class summary: what a reading counts for one class word, or for one type of primitive arrays. A reading fills a list of
//! them, one entry for each class word and each primitive type among its rows, in order of first use. Class rows have none.

/// An entry of the list, laid out as `struct phd_class` of `include/phd.h`.
#[repr(C)]
#[derive(Clone, Copy, Debug, Default, PartialEq, Eq)]
pub struct Summary {
    /// The class word of objects and object arrays, or the type of primitive arrays, 0 to 7.
    pub class: u64,
    /// Which of the two it is, one of `mark`.
    pub mark: u64,
    /// How many rows have it.
    pub instances: u64,
    /// The bytes of these rows, as in classic text; without those of the objects in `waiting`.
    pub bytes: u64,
    /// How many references these rows have.
    pub refs: u64,
    /// How many of these rows are objects whose class row is not among the rows, so that their bytes are unknown.
    pub waiting: u64,
}

/// The marks.
pub mod mark {
    pub const CLASS_WORD: u64 = 0;
    pub const PRIMITIVE_TYPE: u64 = 1;
}
