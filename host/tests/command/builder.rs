//! Builds dumps record by record, with 32-bit addresses.

use crate::harness::HEADER;

/// A dump with the records so far.
pub struct Builder {
    bytes: Vec<u8>,
    /// The address of the record before.
    previous: u64,
}

impl Builder {
    /// Returns a dump without records.
    pub fn new() -> Builder {
        Builder {
            bytes: HEADER.to_vec(),
            previous: 0,
        }
    }

    /// Adds a class with instances of `size` bytes.
    pub fn class(&mut self, address: u64, name: &str, size: u32) -> &mut Builder {
        self.begin(b"\x06\x80", address);
        self.int(size);
        self.int(0);
        self.bytes.extend((name.len() as u16).to_be_bytes());
        self.bytes.extend(name.bytes());
        self.int(0);
        self
    }

    /// Adds an object with a reference.
    pub fn object(&mut self, address: u64, class: u64) -> &mut Builder {
        self.begin(b"\x04\x80", address);
        self.int(class as u32);
        self.int(1);
        self.bytes.push(1);
        self
    }

    /// Adds an object array with so many references, of `size` times 4 bytes.
    pub fn array(&mut self, address: u64, class: u64, refs: u8, size: u32) -> &mut Builder {
        self.begin(b"\x08\x80", address);
        self.int(class as u32);
        self.int(refs.into());
        self.bytes.extend(vec![1; refs.into()]);
        self.int(size);
        self.int(refs.into());
        self
    }

    /// Adds a primitive array of `size` times 4 bytes.
    pub fn primitive(&mut self, address: u64, primitive: u8, size: u32) -> &mut Builder {
        self.begin(&[0x22 | primitive << 2], address);
        self.int(1);
        self.int(size);
        self
    }

    /// Returns the records so far as a dump that is cut off.
    pub fn cut(&self) -> Vec<u8> {
        self.bytes.clone()
    }

    /// Returns the whole dump.
    pub fn end(&self) -> Vec<u8> {
        [&self.bytes[..], b"\x03"].concat()
    }

    /// Adds the start of a record: its tag, its flags if it has some, and its gap as an int.
    fn begin(&mut self, tag: &[u8], address: u64) {
        let gap = (address as i64 - self.previous as i64) / 4;
        self.bytes.extend(tag);
        self.int(gap as i32 as u32);
        self.previous = address;
    }

    fn int(&mut self, value: u32) {
        self.bytes.extend(value.to_be_bytes());
    }
}
