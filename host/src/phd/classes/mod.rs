//! `phd classes`: reports which classes the bytes of a heap belong to, one line for each.

mod bounds;
mod csv;
mod json;
pub mod lines;
mod names;
mod table;
pub mod totals;

use crate::dump::{self, Dump};
use crate::error::{self, Error, Status};
use crate::info::status;
use crate::input::Source;
use crate::messages;
use crate::output::{self, Target};
use lines::Line;
use phd_host::reply;
use std::cmp::Reverse;
use totals::Totals;

/// The order of the lines.
#[derive(Clone, Copy, PartialEq)]
pub enum Sort {
    /// The most bytes first; where they are unknown, what they can be at most counts.
    Bytes,
    Instances,
    Name,
}

/// The format of the report.
#[derive(Clone, Copy, PartialEq)]
pub enum Format {
    Table,
    Csv,
    Json,
}

/// What the command line selects.
pub struct Options {
    /// How many lines are shown, or all of them.
    pub top: Option<usize>,
    pub sort: Sort,
    pub format: Format,
    /// Whether classes have the names of the dump instead of Java's.
    pub raw: bool,
}

/// A line with the name that is shown.
struct Named {
    name: String,
    line: Line,
}

/// What is reported.
struct Report<'a> {
    dump: &'a Dump,
    /// All lines, in the order of the options.
    lines: Vec<Named>,
    /// How many lines are shown, or all of them.
    top: Option<usize>,
    /// Whether any class row was read.
    has_class_rows: bool,
}

/// Reads the source and writes the report to the target.
pub fn run(source: &Source, target: &Target, options: &Options) -> Result<Status, Error> {
    target.check()?;
    let dump = dump::read(source)?;
    let report = Report::of(&dump, options)?;
    let text = match options.format {
        Format::Table => table::text(&report),
        Format::Csv => csv::text(&report),
        Format::Json => json::text(&report),
    };
    if options.format != Format::Table && !dump.is_whole() {
        let why = format!("{}. {}", messages::verdict(&dump), messages::stop(&dump));
        error::print_about(&dump.name, &why);
    }
    output::send(target, text.as_bytes())?;
    Ok(status(&dump))
}

impl Report<'_> {
    /// Makes the report on a dump: its lines with names and bounds, in the order of the options.
    fn of<'a>(dump: &'a Dump, options: &Options) -> Result<Report<'a>, Error> {
        let (mut lines, has_class_rows) = lines::of(dump);
        bounds::set(&mut lines, dump)
            .map_err(|error| Error::failed(&dump.name, error.message("for its addresses")))?;
        let named = |line: Line| Named {
            name: line.name(options.raw, digits(dump)),
            line,
        };
        let mut lines: Vec<Named> = lines.into_iter().map(named).collect();
        lines.sort_by(|one, two| key(one, options.sort).cmp(&key(two, options.sort)));
        Ok(Report {
            dump,
            lines,
            top: options.top,
            has_class_rows,
        })
    }

    /// Returns the sums over all lines.
    fn totals(&self) -> Totals {
        Totals::of(self.lines.iter().map(|named| &named.line))
    }

    /// Returns the lines that are shown, and those that are not.
    fn split(&self) -> (&[Named], &[Named]) {
        let all = self.lines.len();
        self.lines.split_at(self.top.unwrap_or(all).min(all))
    }

    /// Returns the state of the dump in one word.
    fn state(&self) -> &'static str {
        match self.dump.reply() {
            reply::DONE => "whole",
            reply::CUT => "cut",
            _ => "damaged",
        }
    }

    /// Formats the address of a line's class. Primitive arrays have none.
    fn class_address(&self, line: &Line) -> Option<String> {
        let digits = digits(self.dump);
        line.class.map(|class| format!("0x{class:0digits$X}"))
    }
}

/// Returns what lines are sorted by. Lines with the same bytes or instances are in the order of names, and then of addresses.
fn key(named: &Named, sort: Sort) -> impl Ord + use<'_> {
    let line = &named.line;
    let number = match sort {
        Sort::Bytes => line.at_most.unwrap_or(0),
        Sort::Instances => line.instances,
        Sort::Name => 0,
    };
    (Reverse(number), &named.name, line.kind, line.class)
}

/// Returns how many digits an address of a dump has.
fn digits(dump: &Dump) -> usize {
    dump.bits() as usize / 4
}
