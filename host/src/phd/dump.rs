//! A dump file, read by the library into buffers that grow as it needs.

use crate::capacity::Capacity;
use crate::error::Error;
use crate::input::{self, Source};
use crate::memory::{self, OutOfMemory};
use crate::progress;
use crate::stack;
use phd_host::answer::{self, Answer};
use phd_host::row::{kind, COUNT, KIND, LENGTH, ROW_LEN};
use phd_host::summary::Summary;
use phd_host::tables::Tables;
use phd_host::{library, reply};

/// A dump file with the records that were read from it, and the answer of the read.
pub struct Dump {
    pub name: String,
    bytes: Vec<u8>,
    rows: Vec<u64>,
    refs: Vec<u64>,
    summaries: Vec<Summary>,
    answer: Answer,
}

/// How many records of a kind there are, with their references and nulls.
#[derive(Clone, Copy, Default)]
pub struct Counts {
    pub records: u64,
    pub refs: u64,
    pub nulls: u64,
}

/// Returns a row's nulls: of an object array its length minus its references. It is proved that a read stores no array with
/// more references than its length.
fn nulls(row: &[u64]) -> u64 {
    if row[KIND] == kind::OBJECT_ARRAY {
        row[LENGTH] - row[COUNT]
    } else {
        0
    }
}

impl Dump {
    pub fn reply(&self) -> u64 {
        self.answer[answer::REPLY]
    }

    /// Returns whether the dump is whole.
    pub fn is_whole(&self) -> bool {
        self.reply() == reply::DONE
    }

    /// Returns whether the whole header was read.
    pub fn has_header(&self) -> bool {
        self.bits() != 0
    }

    /// Returns the place where reading stopped: after the end tag, at the tag of a record, or 0 for the header.
    pub fn place(&self) -> u64 {
        self.answer[answer::PLACE]
    }

    /// Returns the missing bytes of a cut dump.
    pub fn missing(&self) -> u64 {
        self.answer[answer::MISSING]
    }

    /// Returns the size of the file in bytes.
    pub fn size(&self) -> u64 {
        self.bytes.len() as u64
    }

    /// Returns W, the width of addresses: 32 or 64, or 0 if the header was not read.
    pub fn bits(&self) -> u64 {
        self.answer[answer::BITS]
    }

    pub fn all_hashed(&self) -> bool {
        self.answer[answer::ALL_HASHED] != 0
    }

    pub fn openj9(&self) -> bool {
        self.answer[answer::OPENJ9] != 0
    }

    /// Returns the VM string, if the header has one.
    pub fn vm(&self) -> Option<String> {
        let (place, length) = (
            self.answer[answer::VM_PLACE],
            self.answer[answer::VM_LENGTH],
        );
        (self.answer[answer::VM_PRESENT] != 0).then(|| self.string(place, length))
    }

    /// Returns a string of the dump by its place and length.
    pub fn string(&self, place: u64, length: u64) -> String {
        let bytes = &self.bytes[place as usize..][..length as usize];
        String::from_utf8_lossy(bytes).into_owned()
    }

    /// Returns the tables to write: what was read, with the dump as the name bytes.
    pub fn tables(&self) -> Tables<'_> {
        Tables {
            header: answer::header(&self.answer),
            rows: self.rows(),
            refs: &self.refs[..self.refs() as usize],
            names: &self.bytes,
        }
    }

    /// Returns the rows that were read.
    pub fn rows(&self) -> &[u64] {
        &self.rows[..self.records() as usize * ROW_LEN]
    }

    /// Returns how many records were read.
    pub fn records(&self) -> u64 {
        self.answer[answer::ROWS]
    }

    /// Returns how many references the records have, without nulls.
    pub fn refs(&self) -> u64 {
        self.answer[answer::REFS]
    }

    /// Returns the class summaries of the rows, none if the dump was read without them.
    pub fn summaries(&self) -> &[Summary] {
        &self.summaries[..self.answer[answer::CLASSES] as usize]
    }

    /// Returns the counts of classes, objects, object arrays and primitive arrays.
    pub fn counts_by_kind(&self) -> [Counts; 4] {
        let mut kinds = [Counts::default(); 4];
        for row in self.rows().chunks_exact(ROW_LEN) {
            let counts = &mut kinds[row[KIND] as usize - 1];
            counts.records += 1;
            counts.refs += row[COUNT];
            counts.nulls += nulls(row);
        }
        kinds
    }

    /// Returns the row of a record, if there is one of this index.
    pub fn row(&self, index: u64) -> Option<&[u64]> {
        self.rows().chunks_exact(ROW_LEN).nth(index as usize)
    }
}

/// Reads a dump to its end, or to the place where it is cut off or refused.
pub fn read(source: &Source) -> Result<Dump, Error> {
    load(source, true)
}

/// Reads a dump as `read` does, without class summaries.
pub fn read_tables(source: &Source) -> Result<Dump, Error> {
    load(source, false)
}

/// Reads a dump into buffers that grow until they are large enough.
fn load(source: &Source, with_summaries: bool) -> Result<Dump, Error> {
    let name = source.name();
    let bytes = input::load(source)?;
    let mut capacity = Capacity::guess(bytes.len());
    let no_memory = |error: OutOfMemory| Error::failed(&name, error.message("for its records"));
    loop {
        let doing = format!("reading the records of {name}");
        let _line = progress::show(&doing, Some(bytes.len() as u64));
        let mut rows = memory::zeroed(capacity.rows * ROW_LEN).map_err(no_memory)?;
        let mut refs = memory::zeroed(capacity.refs).map_err(no_memory)?;
        let mut answer = Answer::default();
        let mut summaries = Vec::new();
        let reply = if with_summaries {
            summaries = memory::zeroed(capacity.classes).map_err(no_memory)?;
            let read = || library::read(&bytes, &mut rows, &mut refs, &mut summaries, &mut answer);
            stack::run(read).map_err(|why| not_read(&name, &why))?
        } else {
            library::read_tables(&bytes, &mut rows, &mut refs, &mut answer)
        };
        if !matches!(reply, reply::NO_ROW | reply::NO_REFS | reply::NO_ENTRY) {
            return Ok(Dump {
                name,
                bytes,
                rows,
                refs,
                summaries,
                answer,
            });
        }
        // This ends: a buffer that was too small was below the maximum, so it grows.
        capacity = capacity.grown(bytes.len(), &answer);
    }
}

/// Returns the error for records that cannot be read for want of a stack.
fn not_read(name: &str, why: &str) -> Error {
    Error::failed(name, format!("its records cannot be read: {why}"))
}
