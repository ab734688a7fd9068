//! An independent encoder for the tests. It encodes good tables as a dump, either in the canonical form, which is the one that a
//! writer must choose, or loosely, in any form that a reader must accept.

use crate::rng::Rng;
use crate::tables::*;

pub const OPENING: &[u8] = b"\x00\x12portable heap dump\x00\x00\x00\x06";

/// The ends of the fields of the opening, and of the flags and the start tag after it.
const OPENING_ENDS: [usize; 5] = [2, 20, 24, 28, 29];

/// A field of a record. A reference with the value `zero` leads to address 0.
pub struct Field {
    pub place: usize,
    pub width: usize,
    pub zero: i64,
}

/// A dump, with the places of what is in it.
#[derive(Default)]
pub struct Encoded {
    pub bytes: Vec<u8>,
    /// The places of the records, and after them that of the end tag.
    pub starts: Vec<usize>,
    pub fields: Vec<Field>,
    /// The ends of all fields, in order.
    field_ends: Vec<usize>,
    /// The place of each row's name, or 0 if it has none.
    pub names: Vec<u64>,
    /// The place of the VM string, or 0 if there is none.
    pub vm: u64,
}

impl Encoded {
    /// Returns the place after the end tag.
    pub fn end(&self) -> usize {
        self.starts.last().map_or(0, |tag| tag + 1)
    }

    /// Returns the missing bytes of the first `cut` bytes, which must not include the end tag.
    pub fn missing(&self, cut: usize) -> usize {
        let field = self.field_ends.partition_point(|end| *end <= cut);
        self.field_ends[field] - cut
    }
}

/// Encodes tables in the canonical form.
pub fn canonical(tables: &OwnedTables) -> Encoded {
    encode(tables, None)
}

/// Encodes tables in any form, sometimes with bytes after the end tag.
pub fn loose(tables: &OwnedTables, rng: &mut Rng) -> Encoded {
    let mut encoded = encode(tables, Some(rng));
    if rng.one_in(3) {
        let after = rng.index(5);
        encoded.bytes.extend(rng.bytes(after));
    }
    encoded
}

/// Encodes tables: in the canonical form, or in a random one.
fn encode(tables: &OwnedTables, rng: Option<&mut Rng>) -> Encoded {
    let mut encoder = Encoder {
        tables,
        rng,
        encoded: Encoded::default(),
        slots: Vec::new(),
        next_slot: 0,
        previous: 0,
    };
    encoder.header();
    for index in 0..tables.count() {
        encoder.encoded.starts.push(encoder.encoded.bytes.len());
        encoder.encoded.names.push(0);
        match tables.row(index)[KIND] {
            kind::CLASS => encoder.class(index),
            kind::OBJECT => encoder.object(index),
            kind::OBJECT_ARRAY => encoder.array(index),
            _ => encoder.primitive(index),
        }
        encoder.previous = tables.row(index)[ADDRESS];
    }
    encoder.encoded.starts.push(encoder.encoded.bytes.len());
    encoder.byte(3);
    encoder.encoded
}

/// Returns the gap between two addresses: their distance divided by four.
pub fn gap(from: u64, to: u64) -> i64 {
    ((i128::from(to) - i128::from(from)) / 4) as i64
}

/// Returns the least width code that holds a signed number.
fn least_code(value: i64) -> usize {
    let holds = |bits: u32| (-(1i128 << bits)..1i128 << bits).contains(&i128::from(value));
    [7, 15, 31].into_iter().position(holds).unwrap_or(3)
}

/// The state of encoding a dump.
struct Encoder<'a> {
    tables: &'a OwnedTables,
    /// None for the canonical form.
    rng: Option<&'a mut Rng>,
    encoded: Encoded,
    /// The class cache, and the slot that is filled next.
    slots: Vec<u64>,
    next_slot: usize,
    /// The address of the row before.
    previous: u64,
}

impl Encoder<'_> {
    /// Encodes the header.
    fn header(&mut self) {
        let header = self.tables.header;
        let flag = |at: usize, bit: u8| if header[at] != 0 { bit } else { 0 };
        let wide = u8::from(self.tables.is_wide());
        let flags = wide | flag(header::ALL_HASHED, 2) | flag(header::OPENJ9, 4);
        self.encoded.bytes.extend(OPENING);
        self.encoded.bytes.extend([0, 0, 0, flags, 1]);
        self.encoded.field_ends.extend(OPENING_ENDS);
        if let Some(vm) = self.tables.vm() {
            self.byte(4);
            self.encoded.vm = self.string(vm);
        }
        self.byte(2);
        self.byte(2);
    }

    /// Encodes a tag or a flag byte.
    fn byte(&mut self, byte: u8) {
        self.encoded.bytes.push(byte);
        self.end_field();
    }

    /// Records that a field ends here.
    fn end_field(&mut self) {
        self.encoded.field_ends.push(self.encoded.bytes.len());
    }

    /// Returns whether to deviate from the canonical form: once in `times` times if the form is loose.
    fn deviates(&mut self, times: u64) -> bool {
        self.rng.as_mut().is_some_and(|rng| rng.one_in(times))
    }

    /// Returns a width code from `least` to `most`.
    fn width(&mut self, least: usize, most: usize) -> usize {
        let deviates = self.deviates(2);
        match &mut self.rng {
            Some(rng) if deviates => least + rng.index(most - least + 1),
            _ => least,
        }
    }

    /// Returns some of the bits that a reader ignores.
    fn ignored(&mut self, bits: u8) -> u8 {
        let deviates = self.deviates(3);
        match &mut self.rng {
            Some(rng) if deviates => rng.any() as u8 & bits,
            _ => 0,
        }
    }

    /// Returns the width code of a row's references. Without references any code is valid.
    fn ref_width(&mut self, index: usize) -> usize {
        let from = self.tables.row(index)[ADDRESS];
        let refs = self.tables.refs_of(index).iter();
        let fits = refs.map(|to| least_code(gap(from, *to))).max().unwrap_or(0);
        self.width(fits, 3)
    }

    /// Returns the gap from the row before to a row.
    fn gap(&self, index: usize) -> i64 {
        gap(self.previous, self.tables.row(index)[ADDRESS])
    }

    /// Returns the hash bits of a flag byte.
    fn hash_bits(&mut self, index: usize) -> u8 {
        match self.tables.row(index)[HASH_KIND] {
            hash_kind::HASHED => 1,
            hash_kind::INT if self.deviates(2) => 2,
            hash_kind::INT => 3,
            _ => 0,
        }
    }

    /// Encodes a number in the width of the code.
    fn number(&mut self, code: usize, value: i64) {
        self.field(code, value, 0);
    }

    /// Encodes a number as a field.
    fn field(&mut self, code: usize, value: i64, zero: i64) {
        let (place, width) = (self.encoded.bytes.len(), 1 << code);
        self.encoded.fields.push(Field { place, width, zero });
        self.encoded.bytes.extend(&value.to_be_bytes()[8 - width..]);
        self.end_field();
    }

    /// Returns the width code of a number of W bits.
    fn bits_code(&self) -> usize {
        if self.tables.is_wide() {
            3
        } else {
            2
        }
    }

    /// Encodes a string and returns its place.
    fn string(&mut self, bytes: &[u8]) -> u64 {
        self.number(1, bytes.len() as i64);
        let place = self.encoded.bytes.len();
        let middle = place + bytes.len() / 2;
        self.encoded.bytes.extend(bytes);
        self.end_field();
        if !bytes.is_empty() {
            let (width, zero) = (1, 0);
            self.encoded.fields.push(Field {
                place: middle,
                width,
                zero,
            });
        }
        place as u64
    }

    /// Encodes the hash of a row, if one is stored.
    fn hash(&mut self, index: usize) {
        let row = self.tables.row(index);
        match row[HASH_KIND] {
            hash_kind::INT => self.number(2, row[HASH] as i64),
            hash_kind::SHORT => self.number(1, row[HASH] as i64),
            _ => (),
        }
    }

    /// Encodes the references of a row.
    fn refs(&mut self, index: usize, code: usize) {
        let from = self.tables.row(index)[ADDRESS];
        for to in self.tables.refs_of(index) {
            self.field(code, gap(from, *to), gap(from, 0));
        }
    }

    /// Encodes an object and updates the class cache.
    fn object(&mut self, index: usize) {
        let (gap, row) = (self.gap(index), self.tables.row(index));
        let no_bits = matches!(row[HASH_KIND], hash_kind::NONE | hash_kind::SHORT);
        let compact = no_bits && least_code(gap) <= 1;
        let here = |(at, class): (usize, &u64)| (*class == row[CLASS]).then_some(at);
        let slots: Vec<usize> = self.slots.iter().enumerate().filter_map(here).collect();
        if compact && row[COUNT] <= 3 && !slots.is_empty() && !self.deviates(4) {
            let slot = match &mut self.rng {
                Some(rng) => rng.pick(&slots),
                None => slots[0],
            };
            return self.short_or_medium(
                index,
                0x80 | (slot << 5) | (row[COUNT] as usize) << 3,
                false,
            );
        }
        if compact && row[COUNT] <= 7 && !self.deviates(4) {
            self.short_or_medium(index, 0x40 | (row[COUNT] as usize) << 3, true);
        } else {
            self.long(index, 4);
        }
        if self.slots.len() < 4 {
            self.slots.push(row[CLASS]);
        } else {
            self.slots[self.next_slot] = row[CLASS];
        }
        self.next_slot = (self.next_slot + 1) % 4;
    }

    /// Encodes a short or a medium object.
    fn short_or_medium(&mut self, index: usize, tag: usize, with_class: bool) {
        let row = self.tables.row(index);
        let gap = self.gap(index);
        let gap_code = self.width(least_code(gap), 1);
        let ref_code = self.ref_width(index);
        self.byte((tag | gap_code << 2 | ref_code) as u8);
        self.number(gap_code, gap);
        if with_class {
            self.number(self.bits_code(), row[CLASS] as i64);
        }
        self.hash(index);
        self.refs(index, ref_code);
    }

    /// Encodes a long object, or an object array up to its references.
    fn long(&mut self, index: usize, tag: u8) {
        let row = self.tables.row(index);
        let gap = self.gap(index);
        let (gap_code, ref_code) = (self.width(least_code(gap), 3), self.ref_width(index));
        let flags = (gap_code << 6 | ref_code << 4) as u8;
        let flags = flags | self.hash_bits(index) | self.ignored(0x0C);
        self.byte(tag);
        self.byte(flags);
        self.number(gap_code, gap);
        self.number(self.bits_code(), row[CLASS] as i64);
        self.hash(index);
        self.number(2, row[COUNT] as i64);
        self.refs(index, ref_code);
    }

    /// Encodes an object array.
    fn array(&mut self, index: usize) {
        let row = self.tables.row(index);
        self.long(index, 8);
        self.number(2, row[SIZE] as i64);
        self.number(2, row[LENGTH] as i64);
    }

    /// Encodes a primitive array.
    fn primitive(&mut self, index: usize) {
        let row = self.tables.row(index);
        let (gap, length) = (self.gap(index), row[LENGTH] as i64);
        let fits = least_code(gap).max(least_code(length));
        let has_bits = matches!(row[HASH_KIND], hash_kind::HASHED | hash_kind::INT);
        let code = if has_bits || self.deviates(4) {
            let wide = fits > 0 || self.deviates(3);
            let flags = (row[TYPE] as u8) << 5 | u8::from(wide) << 4;
            let flags = flags | self.hash_bits(index) | self.ignored(0x0C);
            self.byte(7);
            self.byte(flags);
            if wide {
                self.bits_code()
            } else {
                0
            }
        } else {
            let code = self.width(fits, 3);
            self.byte(0x20 | (row[TYPE] as u8) << 2 | code as u8);
            code
        };
        self.number(code, gap);
        self.number(code, length);
        self.hash(index);
        self.number(2, row[SIZE] as i64);
    }

    /// Encodes a class.
    fn class(&mut self, index: usize) {
        let row = self.tables.row(index);
        let gap = self.gap(index);
        let (gap_code, ref_code) = (self.width(least_code(gap), 3), self.ref_width(index));
        let moved = if row[HASH_KIND] == hash_kind::INT {
            0x08
        } else {
            0
        };
        let flags = (gap_code << 6 | ref_code << 4) as u8 | moved | self.ignored(0x07);
        self.byte(6);
        self.byte(flags);
        self.number(gap_code, gap);
        self.number(2, row[SIZE] as i64);
        self.hash(index);
        self.number(self.bits_code(), row[CLASS] as i64);
        self.encoded.names[index] = self.string(self.tables.name_of(index));
        self.number(2, row[COUNT] as i64);
        self.refs(index, ref_code);
    }
}
