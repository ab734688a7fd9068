//! Reads a dump: the header, then each record. A record is stored only after all of it was checked.

use super::buffers::{Buffers, Counts};
use super::cursor::{each_value, Cursor};
use super::{
    is_class_name, is_vm_string, Cache, Header, Reply, CLASS, DUMP_LIMIT, HASHED, INT_HASH,
    NO_HASH, OBJECT, OBJECT_ARRAY, OPENING, PRIMITIVE_ARRAY, SHORT_HASH,
};

/// What a read returns beside what it stores.
pub(super) struct Outcome {
    pub reply: Reply,
    pub place: usize,
    /// The missing bytes of a cut dump, otherwise 0.
    pub missing: usize,
    pub counts: Counts,
    /// The header, if all of it was read.
    pub header: Option<Header>,
}

impl Outcome {
    /// Returns the outcome of a read that ends before the first record.
    fn in_header(reply: Reply, missing: usize) -> Outcome {
        Outcome {
            reply,
            place: 0,
            missing,
            counts: Counts::default(),
            header: None,
        }
    }
}

/// Reads a dump into the buffers.
pub(super) fn read(dump: &[u8], mut buffers: Buffers) -> Outcome {
    if dump.len() > DUMP_LIMIT {
        return Outcome::in_header(Reply::OverLimit, 0);
    }
    let mut cursor = Cursor::new(dump);
    let header = match read_header(&mut cursor) {
        Ok(header) => header,
        Err(reply) => return Outcome::in_header(reply, cursor.missing),
    };
    let mut body = Body::new(cursor, header);
    let (reply, place) = read_records(&mut body, &mut buffers);
    Outcome {
        reply,
        place,
        missing: body.cursor.missing,
        counts: buffers.finish(),
        header: Some(body.header),
    }
}

/// Stores records up to the end tag or to the first that is refused or cut, and returns the reply and its place.
fn read_records(body: &mut Body, buffers: &mut Buffers) -> (Reply, usize) {
    loop {
        let tag_place = body.cursor.at;
        match body.record() {
            Ok(Some(record)) => {
                if let Err(reply) = buffers.store(&record) {
                    return (reply, tag_place);
                }
            }
            Ok(None) => return (Reply::Done, body.cursor.at),
            Err(reply) => return (reply, tag_place),
        }
    }
}

/// Reads the header, including both bytes 2.
fn read_header(cursor: &mut Cursor) -> Result<Header, Reply> {
    if usize::from(cursor.short()?) != OPENING.len() || cursor.take(OPENING.len())? != OPENING {
        return Err(Reply::NoDump);
    }
    if cursor.int()? != 6 {
        return Err(Reply::BadVersion);
    }
    let flags = cursor.int()?;
    if flags & !7 != 0 {
        return Err(Reply::BadFlag);
    }
    cursor.expect(1)?;
    let mut vm = None;
    loop {
        match cursor.byte()? {
            2 => break,
            4 if vm.is_some() => return Err(Reply::BadString),
            4 => {
                let length = cursor.short()?.into();
                let start = cursor.at;
                if !is_vm_string(cursor.take(length)?) {
                    return Err(Reply::BadString);
                }
                vm = Some(start..cursor.at);
            }
            _ => return Err(Reply::BadTag),
        }
    }
    cursor.expect(2)?;
    let bits = if flags & 1 != 0 { 64 } else { 32 };
    Ok(Header {
        bits,
        all_hashed: flags & 2 != 0,
        openj9: flags & 4 != 0,
        vm,
    })
}

/// A record (01's term) as read. Its references are still bytes: checked, but not yet stored.
#[derive(Default)]
pub(super) struct Record<'a> {
    /// Where its tag is.
    pub offset: usize,
    pub kind: u64,
    /// The address divided by four, as gaps are.
    pub address: i64,
    pub class: u64,
    pub hash_kind: u64,
    pub hash: u64,
    pub size: u64,
    pub length: u64,
    pub name_place: u64,
    pub name_length: u64,
    pub primitive: u64,
    pub ref_count: usize,
    pub ref_code: u8,
    pub ref_bytes: &'a [u8],
}

/// The state of reading the records.
struct Body<'a> {
    cursor: Cursor<'a>,
    header: Header,
    /// Addresses divided by four must be below this.
    limit: i64,
    /// The address of the record before, divided by four.
    previous: i64,
    cache: Cache,
}

impl<'a> Body<'a> {
    /// Returns the state before the first record.
    fn new(cursor: Cursor<'a>, header: Header) -> Body<'a> {
        let limit = 1 << (header.bits - 2);
        Body {
            cursor,
            header,
            limit,
            previous: 0,
            cache: Cache::default(),
        }
    }

    /// Reads the next record. Returns nothing at the end tag.
    fn record(&mut self) -> Result<Option<Record<'a>>, Reply> {
        let offset = self.cursor.at;
        let tag = self.cursor.byte()?;
        let record = match tag {
            0x80..=0xFF => self.short_object(tag)?,
            0x40..=0x7F => self.medium_object(tag)?,
            0x20..=0x3F => self.primitive_array(tag)?,
            3 => return Ok(None),
            4 => self.long_object()?,
            6 => self.class()?,
            7 => self.long_primitive_array()?,
            8 => self.object_array()?,
            _ => return Err(Reply::BadTag),
        };
        Ok(Some(Record { offset, ..record }))
    }

    /// Reads a short object after its tag.
    fn short_object(&mut self, tag: u8) -> Result<Record<'a>, Reply> {
        let slot = usize::from(tag >> 5 & 3);
        let class = self.cache.class(slot).ok_or(Reply::EmptySlot)?;
        let mut record = self.begin(OBJECT, tag >> 2 & 1)?;
        record.class = class;
        self.hash(&mut record, false, false)?;
        self.refs(&mut record, (tag >> 3 & 3).into(), tag & 3)?;
        Ok(record)
    }

    /// Reads a medium object after its tag.
    fn medium_object(&mut self, tag: u8) -> Result<Record<'a>, Reply> {
        let mut record = self.begin(OBJECT, tag >> 2 & 1)?;
        record.class = self.class_word()?;
        self.cache.push(record.class);
        self.hash(&mut record, false, false)?;
        self.refs(&mut record, (tag >> 3 & 7).into(), tag & 3)?;
        Ok(record)
    }

    /// Reads a long object after its tag.
    fn long_object(&mut self) -> Result<Record<'a>, Reply> {
        let record = self.object_with_flags(OBJECT)?;
        self.cache.push(record.class);
        Ok(record)
    }

    /// Reads an object array after its tag.
    fn object_array(&mut self) -> Result<Record<'a>, Reply> {
        let mut record = self.object_with_flags(OBJECT_ARRAY)?;
        record.size = self.cursor.int()?.into();
        record.length = self.cursor.count(2)?;
        if record.length < record.ref_count as u64 {
            return Err(Reply::BadCount);
        }
        Ok(record)
    }

    /// Reads what a long object and an object array have in common.
    fn object_with_flags(&mut self, kind: u64) -> Result<Record<'a>, Reply> {
        let flags = self.flags(0x03)?;
        let mut record = self.begin(kind, flags >> 6)?;
        record.class = self.class_word()?;
        self.hash(&mut record, flags & 0x02 != 0, flags & 0x01 != 0)?;
        let count = self.cursor.count(2)?;
        self.refs(&mut record, count as usize, flags >> 4 & 3)?;
        Ok(record)
    }

    /// Reads a primitive array after its tag.
    fn primitive_array(&mut self, tag: u8) -> Result<Record<'a>, Reply> {
        let mut record = self.begin(PRIMITIVE_ARRAY, tag & 3)?;
        record.primitive = (tag >> 2 & 7).into();
        record.length = self.cursor.count(tag & 3)?;
        self.hash(&mut record, false, false)?;
        record.size = self.cursor.int()?.into();
        Ok(record)
    }

    /// Reads a long primitive array after its tag.
    fn long_primitive_array(&mut self) -> Result<Record<'a>, Reply> {
        let flags = self.flags(0x03)?;
        let code = if flags & 0x10 != 0 {
            self.header.bits_code()
        } else {
            0
        };
        let mut record = self.begin(PRIMITIVE_ARRAY, code)?;
        record.primitive = (flags >> 5).into();
        record.length = self.cursor.count(code)?;
        self.hash(&mut record, flags & 0x02 != 0, flags & 0x01 != 0)?;
        record.size = self.cursor.int()?.into();
        Ok(record)
    }

    /// Reads a class after its tag.
    fn class(&mut self) -> Result<Record<'a>, Reply> {
        let flags = self.flags(0x08)?;
        let mut record = self.begin(CLASS, flags >> 6)?;
        record.size = self.cursor.count(2)?;
        self.hash(&mut record, flags & 0x08 != 0, false)?;
        record.class = self.class_word()?;
        let name_length = self.cursor.short()?;
        if name_length == 0 {
            return Err(Reply::BadString);
        }
        record.name_place = self.cursor.at as u64;
        record.name_length = name_length.into();
        if !is_class_name(self.cursor.take(name_length.into())?) {
            return Err(Reply::BadString);
        }
        let count = self.cursor.count(2)?;
        self.refs(&mut record, count as usize, flags >> 4 & 3)?;
        Ok(record)
    }

    /// Reads a flag byte. If all objects are hashed, its hash bits must be clear.
    fn flags(&mut self, hash_bits: u8) -> Result<u8, Reply> {
        let flags = self.cursor.byte()?;
        if self.header.all_hashed && flags & hash_bits != 0 {
            return Err(Reply::HashBits);
        }
        Ok(flags)
    }

    /// Reads the gap and returns a record at the address that it gives.
    fn begin(&mut self, kind: u64, gap_code: u8) -> Result<Record<'a>, Reply> {
        let gap = self.cursor.signed(gap_code)?;
        self.previous = add_gap(self.previous, gap, self.limit)?;
        Ok(Record {
            kind,
            address: self.previous,
            ..Record::default()
        })
    }

    /// Reads a class word: an unsigned number of W bits.
    fn class_word(&mut self) -> Result<u64, Reply> {
        if self.header.bits == 64 {
            self.cursor.array().map(u64::from_be_bytes)
        } else {
            self.cursor.int().map(u64::from)
        }
    }

    /// Reads the hash that the header, or otherwise the record's hash bits, require.
    fn hash(&mut self, record: &mut Record, moved: bool, hashed: bool) -> Result<(), Reply> {
        (record.hash_kind, record.hash) = if self.header.all_hashed {
            (SHORT_HASH, self.cursor.short()?.into())
        } else if moved {
            (INT_HASH, self.cursor.int()?.into())
        } else if hashed {
            (HASHED, 0)
        } else {
            (NO_HASH, 0)
        };
        Ok(())
    }

    /// Checks the references one after another, up to a cut.
    fn refs(&mut self, record: &mut Record<'a>, count: usize, code: u8) -> Result<(), Reply> {
        let (from, limit) = (record.address, self.limit);
        let rest = self.cursor.rest();
        let size = count << code;
        each_value(
            &rest[..size.min(rest.len())],
            code,
            |value| match add_gap(from, value, limit)? {
                0 => Err(Reply::NullRef),
                _ => Ok(()),
            },
        )?;
        record.ref_count = count;
        record.ref_code = code;
        record.ref_bytes = self.cursor.values(count, code)?;
        Ok(())
    }
}

/// Returns the address at a gap from another, both divided by four, if it is in range.
fn add_gap(from: i64, gap: i64, limit: i64) -> Result<i64, Reply> {
    match from.checked_add(gap) {
        Some(to) if (0..limit).contains(&to) => Ok(to),
        _ => Err(Reply::OutOfRange),
    }
}
