//! Tables in memory of their own, with the names that all tests here use.

pub use phd_host::answer::{self, Answer};
pub use phd_host::row::{
    hash_kind, kind, ADDRESS, CLASS, COUNT, FIRST, HASH, HASH_KIND, KIND, LENGTH, NAME_LENGTH,
    NAME_PLACE, OFFSET, ROW_LEN, SIZE, TYPE,
};
pub use phd_host::tables::{header, Header, Tables};
use std::fmt::Write;

/// The numbers in which two rows of the same record may differ: of a name only its bytes count.
pub const POSITIONS: [usize; 2] = [NAME_PLACE, OFFSET];

/// One row.
pub type Row = [u64; ROW_LEN];

/// A header with rows, references and name bytes. `Tables` borrows from it.
#[derive(Clone)]
pub struct OwnedTables {
    pub header: Header,
    pub rows: Vec<u64>,
    pub refs: Vec<u64>,
    pub names: Vec<u8>,
}

impl OwnedTables {
    /// Returns the tables that a read of a dump stored.
    pub fn of_read(dump: &[u8], answer: &Answer, rows: &[u64], refs: &[u64]) -> OwnedTables {
        OwnedTables {
            header: answer::header(answer),
            rows: rows[..answer[answer::ROWS] as usize * ROW_LEN].to_vec(),
            refs: refs[..answer[answer::REFS] as usize].to_vec(),
            names: dump.to_vec(),
        }
    }

    /// Returns the tables as an operation takes them.
    pub fn borrow(&self) -> Tables<'_> {
        Tables {
            header: self.header,
            rows: &self.rows,
            refs: &self.refs,
            names: &self.names,
        }
    }

    /// Returns whether W is 64.
    pub fn is_wide(&self) -> bool {
        self.header[header::BITS] == 64
    }

    pub fn all_hashed(&self) -> bool {
        self.header[header::ALL_HASHED] != 0
    }

    /// Returns how many rows there are.
    pub fn count(&self) -> usize {
        self.rows.len() / ROW_LEN
    }

    pub fn row(&self, index: usize) -> &[u64] {
        &self.rows[index * ROW_LEN..][..ROW_LEN]
    }

    /// Returns the references of a good row.
    pub fn refs_of(&self, index: usize) -> &[u64] {
        let row = self.row(index);
        &self.refs[row[FIRST] as usize..][..row[COUNT] as usize]
    }

    /// Returns the name of a good row.
    pub fn name_of(&self, index: usize) -> &[u8] {
        let row = self.row(index);
        &self.names[row[NAME_PLACE] as usize..][..row[NAME_LENGTH] as usize]
    }

    /// Returns the VM string of a good header.
    pub fn vm(&self) -> Option<&[u8]> {
        let (place, length) = (
            self.header[header::VM_PLACE],
            self.header[header::VM_LENGTH],
        );
        let present = self.header[header::VM_PRESENT] != 0;
        present.then(|| &self.names[place as usize..][..length as usize])
    }

    /// Returns the tables with only the first rows.
    pub fn first_rows(&self, count: usize) -> OwnedTables {
        let mut first = self.clone();
        first.rows.truncate(count * ROW_LEN);
        first
    }

    /// Returns the tables with other offsets in the rows.
    pub fn with_offsets(&self, mut offset: impl FnMut() -> u64) -> OwnedTables {
        let mut other = self.clone();
        for row in other.rows.chunks_exact_mut(ROW_LEN) {
            row[OFFSET] = offset();
        }
        other
    }

    /// Returns a number of bytes that is enough for the text of good rows.
    pub fn text_bound(&self) -> usize {
        let named = |row: &&[u64]| row[KIND] == kind::CLASS && row[NAME_LENGTH] < 1 << 16;
        let names = self.rows.chunks_exact(ROW_LEN).filter(named);
        let longest = names.map(|row| row[NAME_LENGTH]).max().unwrap_or(0) as usize;
        let shared = self.names.len() + self.refs.len() * 20;
        300 + shared + self.count() * (longest + 100)
    }

    /// Formats everything in hexadecimal, one line for each row.
    pub fn show(&self) -> String {
        let mut text = format!("header {:X?}\n", self.header);
        for (index, row) in self.rows.chunks(ROW_LEN).enumerate() {
            let _ = writeln!(text, "row {index} {row:X?}");
        }
        let _ = writeln!(text, "refs {:X?}", self.refs);
        let _ = writeln!(text, "names {}", hex(&self.names));
        text
    }
}

/// Formats bytes in hexadecimal.
pub fn hex(bytes: &[u8]) -> String {
    let mut text = String::with_capacity(bytes.len() * 2);
    for byte in bytes {
        let _ = write!(text, "{byte:02X}");
    }
    text
}
