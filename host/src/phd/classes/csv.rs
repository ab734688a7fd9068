//! The report as comma-separated values: a heading, then one line for each class.

use super::totals::percent;
use super::{Named, Report};

const HEADING: &str = "class,raw_name,class_address,kind,instances,bytes,bytes_at_most,waiting,\
                       references,share_percent,state,reply,place\n";

/// Returns the report as text. Numbers that are unknown are empty.
pub fn text(report: &Report) -> String {
    let all = report.totals();
    let mut text = HEADING.to_string();
    for named in report.split().0 {
        text += &line(report, named, all.bytes).join(",");
        text += "\n";
    }
    text
}

/// Returns the values of a line, given the known bytes in all.
fn line(report: &Report, Named { name, line }: &Named, all: u64) -> [String; 13] {
    let number = |number: Option<u64>| number.map_or(String::new(), |number| number.to_string());
    let share = line.bytes.map(|bytes| percent(bytes, all, 3));
    [
        quoted(name),
        quoted(line.raw.as_deref().unwrap_or("")),
        report.class_address(line).unwrap_or_default(),
        line.kind.name().into(),
        line.instances.to_string(),
        number(line.bytes),
        number(line.at_most),
        line.waiting().to_string(),
        line.refs.to_string(),
        share.unwrap_or_default(),
        report.state().into(),
        report.dump.reply().to_string(),
        report.dump.place().to_string(),
    ]
}

/// Returns a name as a value, in quotes if it has a comma or a quote.
fn quoted(name: &str) -> String {
    if name.contains([',', '"']) {
        format!("\"{}\"", name.replace('"', "\"\""))
    } else {
        name.into()
    }
}
