//! Searches for the shortest encoding of a row: tries every tag and every flag byte, with the fields that they define filled from
//! the row. These are all encodings, since what a tag and a flag byte leave open are the numbers of the row.

use crate::encode::gap;
use crate::read_back::is_same_row;
use crate::tables::*;
use phd_host::plain;

/// The row that is searched for.
pub struct Search<'a> {
    tables: &'a OwnedTables,
    index: usize,
    /// The dump up to the record. It gives the header, the previous address and the class cache.
    dump: Vec<u8>,
    start: usize,
    rows: Vec<u64>,
    refs: Vec<u64>,
}

impl<'a> Search<'a> {
    pub fn new(tables: &'a OwnedTables, index: usize, before: &[u8]) -> Search<'a> {
        Search {
            tables,
            index,
            dump: before.to_vec(),
            start: before.len(),
            rows: vec![0; (index + 2) * ROW_LEN],
            refs: vec![0; tables.refs.len() + 7],
        }
    }

    /// Returns the length of the shortest encoding that is read as the row.
    pub fn shortest(&mut self) -> Option<usize> {
        let mut least = None;
        for tag in 0..=0xFF {
            let max_flags = if has_flags(tag) { 0xFF } else { 0 };
            for flags in 0..=max_flags {
                let bytes = self.encoding(tag, flags);
                if least.is_none_or(|least| bytes.len() < least) && self.is_read(&bytes) {
                    least = Some(bytes.len());
                }
            }
        }
        least
    }

    /// Returns whether the plain implementation reads the bytes as one record that is the same as the row.
    pub fn is_read(&mut self, bytes: &[u8]) -> bool {
        self.dump.truncate(self.start);
        self.dump.extend(bytes);
        let mut answer = [0; 16];
        plain::read_tables(&self.dump, &mut self.rows, &mut self.refs, &mut answer);
        let row = &self.rows[self.index * ROW_LEN..][..ROW_LEN];
        answer[answer::ROWS] == self.index as u64 + 1
            && is_same_row(self.tables, self.index, row, &self.refs, &self.dump)
    }

    /// Encodes the row with a tag and a flag byte. A number that is too large for its field loses its high bytes. If the tag
    /// counts more references than the row has, the last are 4.
    fn encoding(&self, tag: u8, flags: u8) -> Vec<u8> {
        let mut bytes = vec![tag];
        if has_flags(tag) {
            bytes.push(flags);
        }
        match tag {
            0x80.. => {
                self.gap(&mut bytes, tag >> 2 & 1);
                self.hash(&mut bytes, false);
                self.refs(&mut bytes, (tag >> 3 & 3).into(), tag & 3);
            }
            0x40.. => {
                self.gap(&mut bytes, tag >> 2 & 1);
                self.number(&mut bytes, self.bits_code(), CLASS);
                self.hash(&mut bytes, false);
                self.refs(&mut bytes, (tag >> 3 & 7).into(), tag & 3);
            }
            0x20.. => self.primitive(&mut bytes, tag & 3, false),
            4 | 8 => self.with_flags(&mut bytes, tag, flags),
            6 => self.class(&mut bytes, flags),
            7 if flags & 0x10 != 0 => self.primitive(&mut bytes, self.bits_code(), flags & 2 != 0),
            7 => self.primitive(&mut bytes, 0, flags & 2 != 0),
            _ => (),
        }
        bytes
    }

    /// Encodes a long object or an object array.
    fn with_flags(&self, bytes: &mut Vec<u8>, tag: u8, flags: u8) {
        self.gap(bytes, flags >> 6);
        self.number(bytes, self.bits_code(), CLASS);
        self.hash(bytes, flags & 2 != 0);
        self.number(bytes, 2, COUNT);
        self.refs(bytes, self.row()[COUNT] as usize, flags >> 4 & 3);
        if tag == 8 {
            self.number(bytes, 2, SIZE);
            self.number(bytes, 2, LENGTH);
        }
    }

    /// Encodes a primitive array.
    fn primitive(&self, bytes: &mut Vec<u8>, code: u8, moved: bool) {
        self.gap(bytes, code);
        self.number(bytes, code, LENGTH);
        self.hash(bytes, moved);
        self.number(bytes, 2, SIZE);
    }

    /// Encodes a class.
    fn class(&self, bytes: &mut Vec<u8>, flags: u8) {
        self.gap(bytes, flags >> 6);
        self.number(bytes, 2, SIZE);
        self.hash(bytes, flags & 8 != 0);
        self.number(bytes, self.bits_code(), CLASS);
        self.number(bytes, 1, NAME_LENGTH);
        if self.row()[KIND] == kind::CLASS {
            bytes.extend(self.tables.name_of(self.index));
        }
        self.number(bytes, 2, COUNT);
        self.refs(bytes, self.row()[COUNT] as usize, flags >> 4 & 3);
    }

    fn row(&self) -> &[u64] {
        self.tables.row(self.index)
    }

    /// Returns the width code of a number of W bits.
    fn bits_code(&self) -> u8 {
        if self.tables.is_wide() {
            3
        } else {
            2
        }
    }

    /// Encodes a number of the row, given by its place.
    fn number(&self, bytes: &mut Vec<u8>, code: u8, place: usize) {
        append_number(bytes, code, self.row()[place] as i64);
    }

    /// Encodes the gap from the row before.
    fn gap(&self, bytes: &mut Vec<u8>, code: u8) {
        let previous = match self.index {
            0 => 0,
            index => self.tables.row(index - 1)[ADDRESS],
        };
        append_number(bytes, code, gap(previous, self.row()[ADDRESS]));
    }

    /// Encodes the hash, if one is stored.
    fn hash(&self, bytes: &mut Vec<u8>, moved: bool) {
        if self.tables.all_hashed() {
            self.number(bytes, 1, HASH);
        } else if moved {
            self.number(bytes, 2, HASH);
        }
    }

    /// Encodes `count` references.
    fn refs(&self, bytes: &mut Vec<u8>, count: usize, code: u8) {
        let own = self.tables.refs_of(self.index).iter();
        for to in own.chain(std::iter::repeat(&4)).take(count) {
            append_number(bytes, code, gap(self.row()[ADDRESS], *to));
        }
    }
}

/// Returns whether a record with this tag has a flag byte.
fn has_flags(tag: u8) -> bool {
    matches!(tag, 4 | 6..=8)
}

/// Appends the low bytes of a number, as many as the width code states.
fn append_number(bytes: &mut Vec<u8>, code: u8, value: i64) {
    bytes.extend(&value.to_be_bytes()[8 - (1 << code)..]);
}
