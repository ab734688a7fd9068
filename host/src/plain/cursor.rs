//! Reads numbers and bytes of a dump, one after another.

use super::{Reply, COUNT_LIMIT};

/// A place in the dump. Reading moves it forward; if the bytes run out, the dump is cut (01's term).
pub(super) struct Cursor<'a> {
    dump: &'a [u8],
    pub at: usize,
    /// The missing bytes (01's term): how many more the field needed in which the bytes ran out, or 0 if they did not.
    pub missing: usize,
}

impl<'a> Cursor<'a> {
    /// Returns a cursor at the first byte.
    pub fn new(dump: &'a [u8]) -> Cursor<'a> {
        Cursor {
            dump,
            at: 0,
            missing: 0,
        }
    }

    /// Returns the bytes not yet read.
    pub fn rest(&self) -> &'a [u8] {
        &self.dump[self.at..]
    }

    /// Returns the reply for a field of `size` bytes that is cut, and records its missing bytes.
    fn cut(&mut self, size: usize) -> Reply {
        self.missing = size - self.rest().len();
        Reply::Cut
    }

    /// Reads `count` bytes as one field.
    pub fn take(&mut self, count: usize) -> Result<&'a [u8], Reply> {
        let bytes = self.rest().get(..count).ok_or_else(|| self.cut(count))?;
        self.at += count;
        Ok(bytes)
    }

    /// Reads `N` bytes as one field.
    pub fn array<const N: usize>(&mut self) -> Result<[u8; N], Reply> {
        let bytes = *self.rest().first_chunk().ok_or_else(|| self.cut(N))?;
        self.at += N;
        Ok(bytes)
    }

    /// Reads the bytes of `count` values of the code's width, each of which is a field.
    pub fn values(&mut self, count: usize, code: u8) -> Result<&'a [u8], Reply> {
        let whole = self.rest().len() >> code;
        if whole < count {
            self.at += whole << code;
            return Err(self.cut(1 << code));
        }
        self.take(count << code)
    }

    /// Reads a byte.
    pub fn byte(&mut self) -> Result<u8, Reply> {
        self.array().map(u8::from_be_bytes)
    }

    /// Reads an unsigned short.
    pub fn short(&mut self) -> Result<u16, Reply> {
        self.array().map(u16::from_be_bytes)
    }

    /// Reads an unsigned int.
    pub fn int(&mut self) -> Result<u32, Reply> {
        self.array().map(u32::from_be_bytes)
    }

    /// Reads a signed number of the width that the code names.
    pub fn signed(&mut self, code: u8) -> Result<i64, Reply> {
        Ok(match code {
            0 => i8::from_be_bytes(self.array()?).into(),
            1 => i16::from_be_bytes(self.array()?).into(),
            2 => i32::from_be_bytes(self.array()?).into(),
            _ => i64::from_be_bytes(self.array()?),
        })
    }

    /// Reads a count, a length or the instance size of a class.
    pub fn count(&mut self, code: u8) -> Result<u64, Reply> {
        match u64::try_from(self.signed(code)?) {
            Ok(count) if count <= COUNT_LIMIT => Ok(count),
            _ => Err(Reply::BadCount),
        }
    }

    /// Reads a byte that must be this tag.
    pub fn expect(&mut self, tag: u8) -> Result<(), Reply> {
        if self.byte()? == tag {
            Ok(())
        } else {
            Err(Reply::BadTag)
        }
    }
}

/// Calls `visit` with each complete signed number of the code's width in the bytes, until one is refused.
pub(super) fn each_value(
    bytes: &[u8],
    code: u8,
    mut visit: impl FnMut(i64) -> Result<(), Reply>,
) -> Result<(), Reply> {
    match code {
        0 => bytes
            .iter()
            .try_for_each(|&b| visit(i8::from_be_bytes([b]).into())),
        1 => bytes
            .as_chunks()
            .0
            .iter()
            .try_for_each(|&b| visit(i16::from_be_bytes(b).into())),
        2 => bytes
            .as_chunks()
            .0
            .iter()
            .try_for_each(|&b| visit(i32::from_be_bytes(b).into())),
        _ => bytes
            .as_chunks()
            .0
            .iter()
            .try_for_each(|&b| visit(i64::from_be_bytes(b))),
    }
}
