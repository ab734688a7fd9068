//! `phd text` and `phd copy`: write the records of a dump as classic text or as a new dump.

use crate::dump::{self, Dump};
use crate::error::{self, Error, Status};
use crate::info::status;
use crate::input::{Source, LIMIT};
use crate::memory;
use crate::messages;
use crate::output::{self, Target};
use crate::progress;
use crate::stack;
use phd_host::answer::{self, Answer};
use phd_host::row::{ADDRESS, CLASS, OFFSET};
use phd_host::{library, reply};

/// The output format.
#[derive(Clone, Copy)]
pub enum Format {
    Text,
    Dump,
}

impl Format {
    /// Returns the name for messages.
    fn name(self) -> &'static str {
        match self {
            Format::Text => "text",
            Format::Dump => "dump",
        }
    }
}

/// Reads the source and writes the target. Of a dump that is cut off or damaged, the records before that place are written.
pub fn run(source: &Source, target: &Target, format: Format) -> Result<Status, Error> {
    target.check()?;
    let dump = dump::read_tables(source)?;
    if !dump.is_whole() {
        report_partial(&dump)?;
    }
    let bytes = convert_on_thread(&dump, format)?;
    output::send(target, &bytes)?;
    Ok(status(&dump))
}

/// Prints that the dump is not whole, and what is kept of it. Returns an error if not even its header was read.
fn report_partial(dump: &Dump) -> Result<(), Error> {
    let why = format!("{}. {}", messages::verdict(dump), messages::stop(dump));
    if !dump.has_header() {
        let message = format!("{why} Nothing can be kept of it, and nothing is written.");
        return Err(Error::refused(&dump.name, message));
    }
    error::print_about(&dump.name, &why);
    let kinds = messages::KINDS.iter().zip(dump.counts_by_kind());
    let kinds: Vec<String> = kinds
        .map(|(kind, counts)| format!("{kind} {}", messages::grouped(counts.records)))
        .collect();
    let kept = format!(
        "kept are the records before that place: {} ({}) with {}",
        messages::grouped(dump.records()),
        kinds.join(", "),
        messages::count(dump.refs(), "reference"),
    );
    error::print_about(&dump.name, &kept);
    Ok(())
}

/// Converts on a thread with a stack of its own.
fn convert_on_thread(dump: &Dump, format: Format) -> Result<Vec<u8>, Error> {
    let not_started = |why| {
        let message = format!("no {} can be made of it: {why}", format.name());
        Error::failed(&dump.name, message)
    };
    stack::run(|| convert(dump, format)).map_err(not_started)?
}

/// Returns the bytes of the output. A size query comes first, and a buffer of exactly that size is allocated.
fn convert(dump: &Dump, format: Format) -> Result<Vec<u8>, Error> {
    let size = query_size(dump, format)?;
    print_size(dump, format, size as u64);
    let doing = format!("making the {} of {}", format.name(), dump.name);
    let _line = progress::show(&doing, Some(size as u64));
    let mut out = memory::zeroed(size)
        .map_err(|error| Error::failed(&dump.name, error.message("for the output")))?;
    let write = match format {
        Format::Text => library::text,
        Format::Dump => library::write,
    };
    let mut answer = Answer::default();
    match write(&dump.tables(), &mut out, &mut answer) {
        reply::DONE => Ok(out),
        reply => Err(write_error(dump, format, reply, answer[answer::PLACE])),
    }
}

/// Computes how many bytes the output has.
fn query_size(dump: &Dump, format: Format) -> Result<usize, Error> {
    let query = match format {
        Format::Text => library::text_size,
        Format::Dump => library::write_size,
    };
    let tables = dump.tables();
    let doing = format!("checking the records of {}", dump.name);
    let bytes = size_of_val(tables.rows) + size_of_val(tables.refs);
    let _line = progress::show(&doing, Some(bytes as u64));
    let mut answer = Answer::default();
    match query(&tables, &mut answer) {
        reply::DONE => Ok(answer[answer::PLACE] as usize),
        reply => Err(write_error(dump, format, reply, answer[answer::PLACE])),
    }
}

/// Prints how many bytes the output will have, if making it takes long.
fn print_size(dump: &Dump, format: Format, size: u64) {
    if progress::is_shown(Some(size)) {
        let bytes = messages::count(size, "byte");
        let rounded = messages::rounded(size);
        let message = format!("the {} will have {bytes} ({rounded})", format.name());
        error::print_about(&dump.name, &message);
    }
}

/// Returns the error for a refused write or text.
fn write_error(dump: &Dump, format: Format, reply: u64, place: u64) -> Error {
    let what = format.name();
    let why = match reply {
        reply::BAD_HEADER => "the header cannot be written, or there are too many records".into(),
        reply::BAD_ROW => format!("{} cannot be written", record(dump, place)),
        reply::NO_OUTPUT => format!("it would have more than {}", messages::count(LIMIT, "byte")),
        reply::NO_CLASS => class_missing(dump, place),
        _ => "the records were refused".into(),
    };
    let message = format!("no {what} can be written of it (reply {reply}): {why}");
    Error::refused(&dump.name, message)
}

/// Describes a record by its number and its place in the file.
fn record(dump: &Dump, index: u64) -> String {
    let number = format!("record {} (counted from 0)", messages::grouped(index));
    match dump.row(index) {
        Some(row) => format!("{number}, which begins at {},", messages::at(row[OFFSET])),
        None => number,
    }
}

/// Describes a record whose class is missing.
fn class_missing(dump: &Dump, index: u64) -> String {
    let record = record(dump, index);
    let Some(row) = dump.row(index) else {
        return format!("the class of {record} was not read");
    };
    let (address, class) = (row[ADDRESS], row[CLASS]);
    let why = format!("{record} has the address 0x{address:X} and the class at 0x{class:X}");
    let hint = if dump.is_whole() {
        ""
    } else {
        "; it may lie after that place ('phd copy' needs no classes)"
    };
    format!("{why}, and no such class was read{hint}")
}
