//! The report as a table for people to read.

use super::totals::{percent, Totals};
use super::{Named, Report};
use crate::dump::Dump;
use crate::messages::{self, count, grouped};
use phd_host::reply;
use std::collections::{HashMap, HashSet};
use std::fmt::Write;

/// How many characters the bar of a share of 100 percent has.
const BAR: u64 = 20;

const HEADING: [&str; 8] = [
    "rank",
    "bytes",
    "share",
    "cumulative",
    "instances",
    "average",
    "",
    "class",
];

/// The place of the share among these. If some bytes are unknown, it is a share of those that are known, and has no bar.
const SHARE: usize = 2;

/// Returns the report as text. If not all lines are shown, one more sums up the others.
pub fn text(report: &Report) -> String {
    let dump = report.dump;
    let mut text = format!("{}: {}\n", dump.name, messages::verdict(dump));
    text += &format!("  {}\n", messages::stop(dump));
    if !dump.has_header() {
        return text + &format!("  {}\n", messages::around(dump));
    }
    if !dump.is_whole() {
        text += &what_was_read(dump);
    }
    if report.lines.is_empty() {
        return text + "\n  No object and no array was read.\n";
    }
    text += &what_is_unknown(report);
    text += "\n";
    text += &table(report);
    text
}

/// Describes how much of a cut or damaged dump was read, and that nothing more is claimed.
fn what_was_read(dump: &Dump) -> String {
    let records = count(dump.records(), "record");
    let (place, size) = (grouped(dump.place()), count(dump.size(), "byte"));
    let share = percent(dump.place(), dump.size(), 1);
    let rest = match dump.reply() {
        reply::CUT => {
            "What the file lacks is not counted, and nothing in the file shows how much that is."
        }
        _ => "What lies after that place was not read and is not counted.",
    };
    format!("  The table counts what was read: {records}, {share} % of the file ({place} of {size}).\n  {rest}\n")
}

/// Describes which classes have no names and which bytes are unknown, if there are any.
fn what_is_unknown(report: &Report) -> String {
    let lost = report.lines.iter().filter(|named| named.line.raw.is_none());
    let lost: HashSet<Option<u64>> = lost.map(|named| named.line.class).collect();
    if lost.is_empty() {
        return String::new();
    }
    let totals = report.totals();
    let mut text = if !report.has_class_rows {
        "  No class record was read, so classes are named by address. What can be said: the instances of each, and the bytes of arrays.\n".to_string()
    } else {
        let number = grouped(lost.len() as u64);
        format!("  Classes whose record was not read, named by address: {number}.\n")
    };
    if totals.waiting > 0 {
        let objects = count(totals.waiting, "object");
        text += &format!("  Unknown are the bytes of {objects}: only the record of a class has the size of its objects. Shares are of known bytes.\n");
        text += "  <= is the most that they can be: the objects of a class have one size, and none reaches past the next address.\n";
    }
    text
}

/// Returns the table.
fn table(report: &Report) -> String {
    let all = report.totals();
    let (shown, others) = report.split();
    let repeated = repeated(&report.lines);
    let mut heading = HEADING.map(String::from);
    if all.waiting > 0 {
        heading[SHARE] = "known %".into();
    }
    let mut text = String::new();
    append_line(&mut text, &heading);
    let mut so_far = 0;
    for (index, named) in shown.iter().enumerate() {
        so_far += named.line.bytes.unwrap_or(0);
        let mut name = messages::shortened(&named.name);
        if let (true, Some(address)) = (
            repeated.contains(&*named.name),
            report.class_address(&named.line),
        ) {
            name += &format!(" (class at {address})");
        }
        let cells = class_cells(index + 1, named, name, so_far, &all);
        append_line(&mut text, &cells);
    }
    if !others.is_empty() {
        let totals = Totals::of(others.iter().map(|named| &named.line));
        let name = format!("({})", count_of_others(&totals));
        let cells = sum_cells("", &totals, so_far + totals.bytes, all.bytes, name);
        append_line(&mut text, &cells);
    }
    let name = messages::count_of(all.lines, "class", "classes");
    let cells = sum_cells("total", &all, all.bytes, all.bytes, name);
    append_line(&mut text, &cells);
    text + &unknown_total(&all)
}

/// Returns the names that more than one class has.
fn repeated(lines: &[Named]) -> HashSet<&str> {
    let mut counts: HashMap<&str, usize> = HashMap::new();
    for named in lines {
        *counts.entry(&named.name).or_default() += 1;
    }
    let more = counts.into_iter().filter(|(_, count)| *count > 1);
    more.map(|(name, _)| name).collect()
}

/// Describes how many lines are not shown.
fn count_of_others(others: &Totals) -> String {
    let count = messages::count_of(others.lines, "other", "others");
    match others.unknown {
        0 => count,
        unknown => format!("{count}, {} of them with unknown bytes", grouped(unknown)),
    }
}

/// Describes the bytes that are not in the total.
fn unknown_total(all: &Totals) -> String {
    if all.waiting == 0 {
        return String::new();
    }
    let objects = count(all.waiting, "object");
    let bounded = all.waiting - all.unbounded;
    let bound = match (bounded, all.unbounded) {
        (_, 0) => format!("at most {}", grouped(all.at_most)),
        (0, _) => "without a bound".into(),
        (some, others) => format!(
            "at most {} for {}, and without a bound for {}",
            grouped(all.at_most),
            grouped(some),
            grouped(others)
        ),
    };
    format!("\n  Not in this total are the unknown bytes of {objects}: {bound}.\n")
}

/// Returns the cells of a class.
fn class_cells(rank: usize, named: &Named, name: String, so_far: u64, all: &Totals) -> [String; 8] {
    let line = &named.line;
    let share = |part| format!("{} %", percent(part, all.bytes, 1));
    let instances = grouped(line.instances);
    let rank = rank.to_string();
    let average = |bytes| grouped(bytes / line.instances.max(1));
    if let Some(bytes) = line.bytes {
        let bar = match all.waiting {
            0 => "#".repeat(bar_length(bytes, all.bytes)),
            _ => String::new(),
        };
        return [
            rank,
            grouped(bytes),
            share(bytes),
            share(so_far),
            instances,
            average(bytes),
            bar,
            name,
        ];
    }
    let none = String::new;
    let (bytes, average) = match line.at_most {
        Some(bound) => (
            format!("<= {}", grouped(bound)),
            format!("<= {}", average(bound)),
        ),
        None => ("unknown".into(), none()),
    };
    let name = format!(
        "{name} (bytes of {} unknown)",
        count(line.waiting(), "object")
    );
    [
        rank,
        bytes,
        none(),
        none(),
        instances,
        average,
        none(),
        name,
    ]
}

/// Returns the cells of a sum over lines. An average over unknown bytes is left out.
fn sum_cells(title: &str, sum: &Totals, so_far: u64, all: u64, name: String) -> [String; 8] {
    let share = |part| format!("{} %", percent(part, all, 1));
    let average = match sum.waiting {
        0 => grouped(sum.bytes / sum.instances.max(1)),
        _ => String::new(),
    };
    [
        title.into(),
        sum.bytes_text(),
        share(sum.bytes),
        share(so_far),
        grouped(sum.instances),
        average,
        String::new(),
        name,
    ]
}

/// Returns how many characters the bar of a share has, rounded.
fn bar_length(part: u64, all: u64) -> usize {
    let all = u128::from(all.max(1));
    ((u128::from(part) * u128::from(BAR) + all / 2) / all) as usize
}

/// Appends a line of the table.
fn append_line(text: &mut String, cells: &[String; 8]) {
    let [rank, bytes, share, so_far, instances, average, bar, name] = cells;
    let width = BAR as usize;
    // Writing to a string cannot fail.
    let _ = writeln!(
        text,
        "{rank:>6}  {bytes:>17}  {share:>7}  {so_far:>10}  {instances:>12}  {average:>12}  \
         {bar:<width$}  {name}"
    );
}
