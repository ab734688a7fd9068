//! The report as JSON: an object with the state of the dump, the totals, and a list of classes.

use super::totals::percent;
use super::{Named, Report};

/// Returns the report as text. Values that are unknown are null.
pub fn text(report: &Report) -> String {
    let (dump, all) = (report.dump, report.totals());
    let classes = report.split().0.iter();
    let classes = classes.map(|named| class(report, named, all.bytes));
    let classes: Vec<String> = classes.collect();
    let list = match classes.is_empty() {
        true => "[]".to_string(),
        false => format!("[\n    {}\n  ]", classes.join(",\n    ")),
    };
    let members = [
        ("file", string(&dump.name)),
        ("state", string(report.state())),
        ("reply", dump.reply().to_string()),
        ("place", dump.place().to_string()),
        ("file_bytes", dump.size().to_string()),
        ("records", dump.records().to_string()),
        ("instances", all.instances.to_string()),
        ("bytes", all.bytes.to_string()),
        ("waiting", all.waiting.to_string()),
        ("classes", list),
    ];
    format!("{{\n  {}\n}}\n", joined(&members, ",\n  "))
}

/// Returns the object of a line, given the known bytes in all.
fn class(report: &Report, Named { name, line }: &Named, all: u64) -> String {
    let text = |text: Option<&str>| text.map_or("null".into(), string);
    let number = |number: Option<u64>| number.map_or("null".into(), |number| number.to_string());
    let share = line.bytes.map(|bytes| percent(bytes, all, 3));
    let members = [
        ("class", string(name)),
        ("raw_name", text(line.raw.as_deref())),
        ("class_address", text(report.class_address(line).as_deref())),
        ("kind", string(line.kind.name())),
        ("instances", line.instances.to_string()),
        ("bytes", number(line.bytes)),
        ("bytes_at_most", number(line.at_most)),
        ("waiting", line.waiting().to_string()),
        ("references", line.refs.to_string()),
        ("share_percent", share.unwrap_or("null".into())),
    ];
    format!("{{{}}}", joined(&members, ", "))
}

/// Joins the members of an object.
fn joined(members: &[(&str, String)], separator: &str) -> String {
    let member = |(name, value): &(&str, String)| format!("\"{name}\": {value}");
    let members: Vec<String> = members.iter().map(member).collect();
    members.join(separator)
}

/// Returns a text as a JSON string.
fn string(text: &str) -> String {
    let mut json = String::from("\"");
    for character in text.chars() {
        match character {
            '"' | '\\' => json.extend(['\\', character]),
            '\0'..='\x1F' | '\x7F' => json += &format!("\\u{:04x}", u32::from(character)),
            _ => json.push(character),
        }
    }
    json + "\""
}
