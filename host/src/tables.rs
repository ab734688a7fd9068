//! The tables that are written as a dump or as text. This is only the shape of the arguments: slices and six numbers, of which
//! nothing is checked here.

/// The six numbers of a header, by the places in `header`.
pub type Header = [u64; 6];

/// The places of a header's numbers. A flag is set if its number is not 0.
pub mod header {
    /// W, 32 or 64.
    pub const BITS: usize = 0;
    pub const ALL_HASHED: usize = 1;
    pub const OPENJ9: usize = 2;
    /// Whether there is a VM string.
    pub const VM_PRESENT: usize = 3;
    /// Where the VM string is in the name bytes.
    pub const VM_PLACE: usize = 4;
    pub const VM_LENGTH: usize = 5;
}

/// A header with the caller's rows, references and name bytes.
#[derive(Clone, Copy)]
pub struct Tables<'a> {
    pub header: Header,
    /// Rows of `row::ROW_LEN` numbers each.
    pub rows: &'a [u64],
    pub refs: &'a [u64],
    pub names: &'a [u8],
}
