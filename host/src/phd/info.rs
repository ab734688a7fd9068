//! `phd info`: reports whether a dump is whole, where it stops if not, what is in it, and its largest classes.

use crate::classes::lines::{self, Line};
use crate::classes::totals::{percent, Totals};
use crate::dump::{self, Counts, Dump};
use crate::error::{Error, Status};
use crate::input::Source;
use crate::messages;
use crate::output::{self, Sent};
use crate::rows;
use phd_host::reply;
use std::cmp::Reverse;

/// How many of the largest classes are listed.
const LARGEST: usize = 3;

/// Prints a report about each file, with its rows if `with_rows` is set, and returns the worst status.
pub fn run(sources: &[Source], with_rows: bool) -> Result<Status, Error> {
    let mut worst = Status::Done;
    let mut first = true;
    for source in sources {
        let status = match dump::read(source) {
            Err(error) => error.report(),
            Ok(dump) => {
                let separator = if first { "" } else { "\n" };
                first = false;
                let mut sent = output::print(&format!("{separator}{}", report(&dump)))?;
                if with_rows && sent == Sent::Whole {
                    sent = rows::print(&dump)?;
                }
                if sent == Sent::NoReader {
                    return Ok(worst);
                }
                status(&dump)
            }
        };
        worst = worst.max(status);
    }
    Ok(worst)
}

/// Returns the exit status for a dump that was read.
pub fn status(dump: &Dump) -> Status {
    if dump.is_whole() {
        Status::Done
    } else {
        Status::Refused
    }
}

/// Returns the report without rows.
fn report(dump: &Dump) -> String {
    let mut text = format!("{}: {}\n", dump.name, messages::verdict(dump));
    text += &format!("  {}\n", messages::stop(dump));
    if dump.reply() == reply::CUT {
        text += &format!("  {}\n", messages::missing(dump));
    }
    text += &format!("  {}\n\n", messages::around(dump));
    if dump.has_header() {
        text += &counts(dump);
        text += "\n";
    }
    text += &property("file size", &messages::size(dump));
    if dump.has_header() {
        text += &header(dump);
        text += &largest_classes(dump);
    }
    text
}

/// Returns the table of records, references and nulls by kind.
fn counts(dump: &Dump) -> String {
    let kinds = dump.counts_by_kind();
    let all = Counts {
        records: dump.records(),
        refs: dump.refs(),
        nulls: kinds.iter().map(|counts| counts.nulls).sum(),
    };
    let mut text = line("", ["records", "references", "nulls"].map(String::from));
    for (kind, counts) in messages::KINDS.iter().zip(kinds) {
        text += &counts_line(kind, counts);
    }
    text + &counts_line("all", all)
}

fn counts_line(kind: &str, counts: Counts) -> String {
    let numbers = [counts.records, counts.refs, counts.nulls];
    line(kind, numbers.map(messages::grouped))
}

fn line(name: &str, [records, refs, nulls]: [String; 3]) -> String {
    format!("  {name:<18}{records:>14}{refs:>16}{nulls:>16}\n")
}

/// Returns the lines about the header.
fn header(dump: &Dump) -> String {
    let yes_or_no = |yes| if yes { "yes" } else { "no" };
    let vm = match dump.vm() {
        Some(vm) => format!("\"{vm}\""),
        None => "not given".into(),
    };
    property("address width", &format!("{} bit", dump.bits()))
        + &property("all objects hashed", yes_or_no(dump.all_hashed()))
        + &property("from OpenJ9", yes_or_no(dump.openj9()))
        + &property("VM version", &vm)
}

fn property(name: &str, value: &str) -> String {
    format!("  {name:<20}{value}\n")
}

/// Returns the lines about the largest classes and about all of them, or nothing if there is no object and no array.
fn largest_classes(dump: &Dump) -> String {
    let (mut lines, _) = lines::of(dump);
    let all = Totals::of(&lines);
    if all.lines == 0 {
        return String::new();
    }
    let mut text = "\n".to_string();
    let share = if all.waiting > 0 { "known %" } else { "share" };
    text += &class_line(["bytes", share, "instances", "largest classes"].map(String::from));
    lines.retain(|line| line.bytes.is_some());
    let digits = dump.bits() as usize / 4;
    let key = |line: &Line| (Reverse(line.bytes), line.name(false, digits), line.class);
    lines.sort_by_cached_key(key);
    for line in lines.iter().take(LARGEST) {
        let (bytes, name) = (line.bytes.unwrap_or(0), line.name(false, digits));
        text += &class_line([
            messages::grouped(bytes),
            format!("{} %", percent(bytes, all.bytes, 1)),
            messages::grouped(line.instances),
            messages::shortened(&name),
        ]);
    }
    text += &class_line([
        all.bytes_text(),
        format!("{} %", percent(all.bytes, all.bytes, 1)),
        messages::grouped(all.instances),
        messages::count_of(all.lines, "class", "classes") + " in all",
    ]);
    if all.waiting > 0 {
        let objects = messages::count(all.waiting, "object");
        text += &format!("  Not in this sum are the bytes of {objects}: the records of their classes were not read.\n");
    }
    text
}

fn class_line([bytes, share, instances, name]: [String; 4]) -> String {
    format!("  {bytes:>18}{share:>10}{instances:>14}  {name}\n")
}
