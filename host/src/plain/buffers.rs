//! The caller's buffers that a read fills: rows, references and, if there is one, the list of class summaries.

use super::cursor::each_value;
use super::read::Record;
use super::summaries::Summaries;
use super::{Reply, ROW_LEN};
use crate::summary::Summary;

/// The buffers, and how much of them is filled.
pub(super) struct Buffers<'t> {
    rows: &'t mut [[u64; ROW_LEN]],
    refs: &'t mut [u64],
    summaries: Option<Summaries<'t>>,
    row_count: usize,
    ref_count: usize,
}

/// How many rows, references and entries of the list are in use.
#[derive(Default)]
pub(super) struct Counts {
    pub rows: usize,
    pub refs: usize,
    pub classes: usize,
}

impl<'t> Buffers<'t> {
    /// Returns the buffers before the first record. Numbers at the end of `rows` that are too few for a row are not used.
    pub fn new(
        rows: &'t mut [u64],
        refs: &'t mut [u64],
        classes: Option<&'t mut [Summary]>,
    ) -> Buffers<'t> {
        Buffers {
            rows: rows.as_chunks_mut().0,
            refs,
            summaries: classes.map(Summaries::new),
            row_count: 0,
            ref_count: 0,
        }
    }

    /// Stores a record completely, or nothing of it if there is too little capacity: checks that of rows first, then that of
    /// references, then that of the list.
    pub fn store(&mut self, record: &Record) -> Result<(), Reply> {
        let row = self.rows.get_mut(self.row_count).ok_or(Reply::NoRow)?;
        let capacity = self.refs[self.ref_count..].get_mut(..record.ref_count);
        let mut places = capacity.ok_or(Reply::NoRefs)?.iter_mut();
        if let Some(summaries) = &mut self.summaries {
            summaries.add(record)?;
        }
        *row = [
            record.kind,
            record.address as u64 * 4,
            record.class,
            record.hash_kind,
            record.hash,
            self.ref_count as u64,
            record.ref_count as u64,
            record.size,
            record.length,
            record.name_place,
            record.name_length,
            record.primitive,
            record.offset as u64,
        ];
        self.row_count += 1;
        self.ref_count += record.ref_count;
        each_value(record.ref_bytes, record.ref_code, |value| {
            if let Some(place) = places.next() {
                *place = (record.address + value) as u64 * 4;
            }
            Ok(())
        })
    }

    /// Completes the list after the last record, and returns the counts.
    pub fn finish(self) -> Counts {
        Counts {
            rows: self.row_count,
            refs: self.ref_count,
            classes: self.summaries.map_or(0, Summaries::finish),
        }
    }
}
