//! Calls the proved library through the C functions of `include/phd.h`. The functions here pass slices on and decide nothing.

use crate::answer::Answer;
use crate::summary::Summary;
use crate::tables::{Header, Tables};

/// Returns the largest number of rows that a dump of `dump_len` bytes can give: its header has at least 31 bytes, and a record
/// at least two. With a table of that capacity a read never gives `reply::NO_ROW`. (Proved: `stored_bounds`, `rows_never_full`
/// and `refs_never_full` in crates/phd_read/specs/ReadTheorems.antt.) No more entries are needed either, since each has a row:
/// with a list of so many a read never gives `reply::NO_ENTRY`.
pub fn max_rows(dump_len: usize) -> usize {
    max_refs(dump_len) / 2
}

/// Returns the largest number of references that a dump of `dump_len` bytes can give: a reference has at least one byte. With
/// a table of that capacity a read never gives `reply::NO_REFS`.
pub fn max_refs(dump_len: usize) -> usize {
    dump_len.saturating_sub(31)
}

/// The C functions `phd_write` and `phd_text`. A slice is passed as a pointer and a length.
type WriteCall = unsafe extern "C" fn(
    header: *const Header,
    rows: *const u64,
    rows_len: usize,
    refs: *const u64,
    refs_len: usize,
    names: *const u8,
    names_len: usize,
    out: *mut u8,
    out_len: usize,
    answer: *mut Answer,
) -> u64;

/// The C functions `phd_write_size` and `phd_text_size`.
type SizeCall = unsafe extern "C" fn(
    header: *const Header,
    rows: *const u64,
    rows_len: usize,
    refs: *const u64,
    refs_len: usize,
    names: *const u8,
    names_len: usize,
    answer: *mut Answer,
) -> u64;

mod c_functions {
    use super::{Answer, Header, Summary};

    extern "C" {
        pub fn phd_read(
            dump: *const u8,
            dump_len: usize,
            rows: *mut u64,
            rows_len: usize,
            refs: *mut u64,
            refs_len: usize,
            classes: *mut Summary,
            classes_len: usize,
            answer: *mut Answer,
        ) -> u64;
        pub fn phd_read_tables(
            dump: *const u8,
            dump_len: usize,
            rows: *mut u64,
            rows_len: usize,
            refs: *mut u64,
            refs_len: usize,
            answer: *mut Answer,
        ) -> u64;
        pub fn phd_write_size(
            header: *const Header,
            rows: *const u64,
            rows_len: usize,
            refs: *const u64,
            refs_len: usize,
            names: *const u8,
            names_len: usize,
            answer: *mut Answer,
        ) -> u64;
        pub fn phd_write(
            header: *const Header,
            rows: *const u64,
            rows_len: usize,
            refs: *const u64,
            refs_len: usize,
            names: *const u8,
            names_len: usize,
            out: *mut u8,
            out_len: usize,
            answer: *mut Answer,
        ) -> u64;
        pub fn phd_text_size(
            header: *const Header,
            rows: *const u64,
            rows_len: usize,
            refs: *const u64,
            refs_len: usize,
            names: *const u8,
            names_len: usize,
            answer: *mut Answer,
        ) -> u64;
        pub fn phd_text(
            header: *const Header,
            rows: *const u64,
            rows_len: usize,
            refs: *const u64,
            refs_len: usize,
            names: *const u8,
            names_len: usize,
            out: *mut u8,
            out_len: usize,
            answer: *mut Answer,
        ) -> u64;
    }
}

/// Reads a dump into the tables of rows and references and the list of class summaries, and returns the reply.
pub fn read(
    dump: &[u8],
    rows: &mut [u64],
    refs: &mut [u64],
    classes: &mut [Summary],
    answer: &mut Answer,
) -> u64 {
    // Sound as in `read_tables`; `Summary` is laid out as `struct phd_class`.
    unsafe {
        c_functions::phd_read(
            dump.as_ptr(),
            dump.len(),
            rows.as_mut_ptr(),
            rows.len(),
            refs.as_mut_ptr(),
            refs.len(),
            classes.as_mut_ptr(),
            classes.len(),
            answer,
        )
    }
}

/// Reads a dump into the tables of rows and references, and returns the reply.
pub fn read_tables(dump: &[u8], rows: &mut [u64], refs: &mut [u64], answer: &mut Answer) -> u64 {
    // Sound: every pointer comes with the length of its slice, the slices are borrowed for the call, the mutable ones
    // exclusively, and the library is proved to stay within the lengths.
    unsafe {
        c_functions::phd_read_tables(
            dump.as_ptr(),
            dump.len(),
            rows.as_mut_ptr(),
            rows.len(),
            refs.as_mut_ptr(),
            refs.len(),
            answer,
        )
    }
}

/// Computes how many bytes the tables take as a dump, and returns the reply.
pub fn write_size(tables: &Tables, answer: &mut Answer) -> u64 {
    size(c_functions::phd_write_size, tables, answer)
}

/// Writes the tables as a dump and returns the reply.
pub fn write(tables: &Tables, out: &mut [u8], answer: &mut Answer) -> u64 {
    write_by(c_functions::phd_write, tables, out, answer)
}

/// Computes how many bytes the tables take as classic text, and returns the reply.
pub fn text_size(tables: &Tables, answer: &mut Answer) -> u64 {
    size(c_functions::phd_text_size, tables, answer)
}

/// Writes the tables as classic text and returns the reply.
pub fn text(tables: &Tables, out: &mut [u8], answer: &mut Answer) -> u64 {
    write_by(c_functions::phd_text, tables, out, answer)
}

/// Calls a size query.
fn size(call: SizeCall, tables: &Tables, answer: &mut Answer) -> u64 {
    // Sound as in `read_tables`.
    unsafe {
        call(
            &tables.header,
            tables.rows.as_ptr(),
            tables.rows.len(),
            tables.refs.as_ptr(),
            tables.refs.len(),
            tables.names.as_ptr(),
            tables.names.len(),
            answer,
        )
    }
}

/// Calls a write or a text.
fn write_by(call: WriteCall, tables: &Tables, out: &mut [u8], answer: &mut Answer) -> u64 {
    // Sound as in `read_tables`.
    unsafe {
        call(
            &tables.header,
            tables.rows.as_ptr(),
            tables.rows.len(),
            tables.refs.as_ptr(),
            tables.refs.len(),
            tables.names.as_ptr(),
            tables.names.len(),
            out.as_mut_ptr(),
            out.len(),
            answer,
        )
    }
}
