//! Writes checked tables as a dump: once to compute its size, then into the output if that is large enough.

use super::{
    appender, Cache, CheckedTables, Header, Reply, Row, Stop, CLASS, DUMP_LIMIT, HASHED, INT_HASH,
    OBJECT, OBJECT_ARRAY, OPENING, SHORT_HASH,
};

/// Computes the size of the dump, if it is within the limit.
pub(super) fn size(tables: &CheckedTables) -> Result<usize, Stop> {
    let mut size = 0;
    encode_dump(tables, |bytes| size += bytes.len());
    if size > DUMP_LIMIT {
        return Err((Reply::NoOutput, 0));
    }
    Ok(size)
}

/// Writes the dump and returns its size.
pub(super) fn write(tables: &CheckedTables, out: &mut [u8]) -> Result<usize, Stop> {
    let size = size(tables)?;
    if size > out.len() {
        return Err((Reply::NoOutput, 0));
    }
    encode_dump(tables, appender(out));
    Ok(size)
}

/// Encodes the whole dump and passes its bytes to the sink, piece by piece.
fn encode_dump(tables: &CheckedTables, sink: impl FnMut(&[u8])) {
    let mut body = Body {
        header: &tables.header,
        sink,
        previous: 0,
        cache: Cache::default(),
    };
    body.encode_header(tables.vm());
    for row in tables.rows() {
        let refs = tables.refs(&row);
        match row.kind {
            CLASS => body.class(&row, refs, tables.name(&row)),
            OBJECT => body.object(&row, refs),
            OBJECT_ARRAY => body.object_array(&row, refs),
            _ => body.primitive_array(&row),
        }
    }
    body.byte(3);
}

/// Returns the least width code that holds a signed number.
fn width_code(value: i64) -> u8 {
    if i8::try_from(value).is_ok() {
        0
    } else if i16::try_from(value).is_ok() {
        1
    } else if i32::try_from(value).is_ok() {
        2
    } else {
        3
    }
}

/// Returns the gap (01's term) between two addresses: their distance divided by four. Both are multiples of four, so it is exact.
fn gap_between(from: u64, to: u64) -> i64 {
    (to / 4) as i64 - (from / 4) as i64
}

/// Returns the least width code that holds the gaps to all references.
fn refs_code(from: u64, refs: &[u64]) -> u8 {
    refs.iter()
        .map(|&to| width_code(gap_between(from, to)))
        .max()
        .unwrap_or(0)
}

/// Returns the hash bits of a record's flag byte; not for classes. A record with any of them needs a long form.
fn hash_bits(row: &Row) -> u8 {
    match row.hash_kind {
        HASHED => 0x01,
        INT_HASH => 0x03,
        _ => 0,
    }
}

/// The state of encoding a dump.
struct Body<'a, P> {
    header: &'a Header,
    /// Receives the bytes of the dump.
    sink: P,
    /// The address of the record before.
    previous: u64,
    cache: Cache,
}

impl<P: FnMut(&[u8])> Body<'_, P> {
    /// Encodes the header.
    fn encode_header(&mut self, vm: &[u8]) {
        let header = self.header;
        let flags = u32::from(header.bits == 64)
            | u32::from(header.all_hashed) << 1
            | u32::from(header.openj9) << 2;
        self.string(OPENING);
        self.int(6);
        self.int(flags.into());
        self.byte(1);
        if header.vm.is_some() {
            self.byte(4);
            self.string(vm);
        }
        self.byte(2);
        self.byte(2);
    }

    /// Encodes an object in the first of its three forms that can hold it.
    fn object(&mut self, row: &Row, refs: &[u64]) {
        let gap = self.gap(row);
        let gap_code = width_code(gap);
        if hash_bits(row) != 0 || gap_code > 1 || refs.len() > 7 {
            self.cache.push(row.class);
            return self.with_flags(4, row, gap, refs);
        }
        let ref_code = refs_code(row.address, refs);
        let low_bits = (refs.len() as u8) << 3 | gap_code << 2 | ref_code;
        match self.cache.slot(row.class) {
            Some(slot) if refs.len() <= 3 => {
                self.byte(0x80 | (slot as u8) << 5 | low_bits);
                self.signed(gap, gap_code);
            }
            _ => {
                self.byte(0x40 | low_bits);
                self.signed(gap, gap_code);
                self.class_word(row.class);
                self.cache.push(row.class);
            }
        }
        self.hash(row);
        self.refs(row.address, refs, ref_code);
    }

    /// Encodes an object array.
    fn object_array(&mut self, row: &Row, refs: &[u64]) {
        let gap = self.gap(row);
        self.with_flags(8, row, gap, refs);
        self.int(row.size);
        self.int(row.length);
    }

    /// Encodes what a long object and an object array have in common.
    fn with_flags(&mut self, tag: u8, row: &Row, gap: i64, refs: &[u64]) {
        let (gap_code, ref_code) = (width_code(gap), refs_code(row.address, refs));
        self.byte(tag);
        self.byte(gap_code << 6 | ref_code << 4 | hash_bits(row));
        self.signed(gap, gap_code);
        self.class_word(row.class);
        self.hash(row);
        self.int(row.count);
        self.refs(row.address, refs, ref_code);
    }

    /// Encodes a primitive array, in the long form only if its hash needs that.
    fn primitive_array(&mut self, row: &Row) {
        let gap = self.gap(row);
        let length = row.length as i64;
        let least = width_code(gap).max(width_code(length));
        let primitive = row.primitive as u8;
        let width = if hash_bits(row) == 0 {
            self.byte(0x20 | primitive << 2 | least);
            least
        } else if least == 0 {
            self.byte(7);
            self.byte(primitive << 5 | hash_bits(row));
            0
        } else {
            self.byte(7);
            self.byte(primitive << 5 | 0x10 | hash_bits(row));
            self.header.bits_code()
        };
        self.signed(gap, width);
        self.signed(length, width);
        self.hash(row);
        self.int(row.size);
    }

    /// Encodes a class.
    fn class(&mut self, row: &Row, refs: &[u64], name: &[u8]) {
        let gap = self.gap(row);
        let (gap_code, ref_code) = (width_code(gap), refs_code(row.address, refs));
        let moved = if row.hash_kind == INT_HASH { 0x08 } else { 0 };
        self.byte(6);
        self.byte(gap_code << 6 | ref_code << 4 | moved);
        self.signed(gap, gap_code);
        self.int(row.size);
        self.hash(row);
        self.class_word(row.class);
        self.string(name);
        self.int(row.count);
        self.refs(row.address, refs, ref_code);
    }

    /// Returns the gap from the row before to this row, which becomes the row before.
    fn gap(&mut self, row: &Row) -> i64 {
        let gap = gap_between(self.previous, row.address);
        self.previous = row.address;
        gap
    }

    /// Encodes a row's hash, if one is stored.
    fn hash(&mut self, row: &Row) {
        match row.hash_kind {
            INT_HASH => self.int(row.hash),
            SHORT_HASH => (self.sink)(&(row.hash as u16).to_be_bytes()),
            _ => {}
        }
    }

    /// Encodes references in a width that holds all of them.
    fn refs(&mut self, from: u64, refs: &[u64], code: u8) {
        for &to in refs {
            self.signed(gap_between(from, to), code);
        }
    }

    /// Encodes a signed number in the width of the code, which must hold it.
    fn signed(&mut self, value: i64, code: u8) {
        match code {
            0 => (self.sink)(&(value as i8).to_be_bytes()),
            1 => (self.sink)(&(value as i16).to_be_bytes()),
            2 => (self.sink)(&(value as i32).to_be_bytes()),
            _ => (self.sink)(&value.to_be_bytes()),
        }
    }

    /// Encodes a class word: an unsigned number of W bits.
    fn class_word(&mut self, value: u64) {
        if self.header.bits == 64 {
            (self.sink)(&value.to_be_bytes());
        } else {
            self.int(value);
        }
    }

    /// Encodes a number in an int, which must hold it.
    fn int(&mut self, value: u64) {
        (self.sink)(&(value as u32).to_be_bytes());
    }

    /// Encodes a byte.
    fn byte(&mut self, value: u8) {
        (self.sink)(&[value]);
    }

    /// Encodes a string of at most 65,535 bytes: its length, then its bytes.
    fn string(&mut self, bytes: &[u8]) {
        (self.sink)(&(bytes.len() as u16).to_be_bytes());
        (self.sink)(bytes);
    }
}
