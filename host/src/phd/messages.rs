//! Numbers, places and replies as text for users.

use crate::dump::Dump;
use crate::input::LIMIT;
use phd_host::reply;

/// The kinds of records, in the order of their numbers.
pub const KINDS: [&str; 4] = ["classes", "objects", "object arrays", "primitive arrays"];

/// A name of more characters than this is shortened.
const LONGEST_NAME: usize = 200;

/// Formats a number with a comma before every third digit from the right.
pub fn grouped(number: impl Into<u128>) -> String {
    let digits = number.into().to_string();
    let (first, rest) = digits.split_at((digits.len() - 1) % 3 + 1);
    let mut text = String::with_capacity(digits.len() * 4 / 3);
    text.push_str(first);
    for (index, digit) in rest.chars().enumerate() {
        if index % 3 == 0 {
            text.push(',');
        }
        text.push(digit);
    }
    text
}

/// Formats a number and what it counts: `1 byte`, `2 bytes`.
pub fn count(number: u64, thing: &str) -> String {
    count_of(number, thing, &format!("{thing}s"))
}

/// Formats a number and what it counts, in the singular or the plural: `1 class`, `2 classes`.
pub fn count_of(number: u64, one: &str, more: &str) -> String {
    let thing = if number == 1 { one } else { more };
    format!("{} {thing}", grouped(number))
}

/// Returns a name, or the start of a long one with its length.
pub fn shortened(name: &str) -> String {
    match name.get(..LONGEST_NAME) {
        Some(start) if start != name => {
            format!("{start}.. ({})", count(name.len() as u64, "character"))
        }
        _ => name.into(),
    }
}

/// Formats a number of bytes in MB, or in GB if there are so many.
pub fn rounded(bytes: u64) -> String {
    if bytes < 1_000_000_000 {
        format!("{} MB", bytes / 1_000_000)
    } else {
        format!("{:.1} GB", bytes as f64 / 1e9)
    }
}

/// Formats a place in a file, in decimal and hexadecimal.
pub fn at(place: u64) -> String {
    format!("byte {} (0x{place:X})", grouped(place))
}

/// Describes the size of the file. Over the limit the exact size is not known.
pub fn size(dump: &Dump) -> String {
    if dump.size() > LIMIT {
        format!("more than {}", count(LIMIT, "byte"))
    } else {
        count(dump.size(), "byte")
    }
}

/// Describes whether the dump is whole, cut off or refused, with the reply's number.
pub fn verdict(dump: &Dump) -> String {
    let verdict = match dump.reply() {
        reply::DONE => "whole",
        reply::CUT => "cut off",
        _ => "refused",
    };
    format!("{verdict} (reply {})", dump.reply())
}

/// Describes where reading ended, and why.
pub fn stop(dump: &Dump) -> String {
    match dump.reply() {
        reply::DONE => end(dump),
        reply::CUT => cut(dump),
        _ if !dump.has_header() => refused_header(dump.reply()).into(),
        reply => refused_record(reply, dump.place()),
    }
}

/// Describes what was read before that place, or what follows a whole dump.
pub fn around(dump: &Dump) -> String {
    if dump.is_whole() {
        return after(dump);
    }
    if !dump.has_header() {
        return "No record was read, and nothing is known of the header.".into();
    }
    let records = count(dump.records(), "record");
    let before = match dump.records() {
        0 => "No record lies before that place.".into(),
        1 => format!("The {records} before that place was read whole and is right."),
        _ => format!("The {records} before that place were read whole and are right."),
    };
    match dump.reply() {
        reply::CUT => before,
        _ => before + " Nothing after it was read.",
    }
}

/// Describes the end of a whole dump.
fn end(dump: &Dump) -> String {
    let records = count(dump.records(), "record");
    let tag = at(dump.place().saturating_sub(1));
    format!("All of it was read: {records}, up to the end tag at {tag}.")
}

/// Describes the bytes after a whole dump.
fn after(dump: &Dump) -> String {
    match dump.size().saturating_sub(dump.place()) {
        0 => "Nothing follows the end tag.".into(),
        1 => "1 byte follows the end tag; it is no part of the dump.".into(),
        rest => {
            let rest = count(rest, "byte");
            format!("{rest} follow the end tag; they are no part of the dump.")
        }
    }
}

/// Describes where a cut dump ends.
fn cut(dump: &Dump) -> String {
    let (place, size) = (dump.place(), dump.size());
    let there = count(size.saturating_sub(place), "byte");
    if size == 0 {
        "The file is empty.".into()
    } else if !dump.has_header() {
        format!("The file ends inside the header, after {there} of it.")
    } else if place == size {
        let place = at(place);
        format!("The file ends at {place}, where a record or the end tag must begin.")
    } else {
        let place = at(place);
        format!("The file ends inside the record that begins at {place}, after {there} of it.")
    }
}

/// Describes the missing bytes of a cut dump.
pub fn missing(dump: &Dump) -> String {
    let bytes = count(dump.missing(), "byte");
    let are = if dump.missing() == 1 { "is" } else { "are" };
    format!("At least {bytes} of the dump {are} missing: what the field at its end still lacked.")
}

/// Describes why a header was refused.
fn refused_header(reply: u64) -> &'static str {
    match reply {
        reply::OVER_LIMIT => {
            "The file has more than 1,073,741,824 bytes, the most that a dump may have."
        }
        reply::NO_DUMP => {
            "The file does not begin with the words 'portable heap dump': it is no PHD file."
        }
        reply::BAD_VERSION => "The version in the header is not 6, the only one that is read.",
        reply::BAD_FLAG => "The header has a flag that no one knows.",
        reply::BAD_TAG => "The header has a byte that is not allowed where it is.",
        reply::BAD_STRING => {
            "The VM version in the header has a byte that is not allowed, or is there twice."
        }
        _ => "The header was refused.",
    }
}

/// Describes why a record was refused.
fn refused_record(reply: u64, place: u64) -> String {
    let why = match reply {
        reply::BAD_TAG => "begins with a byte that no record begins with",
        reply::BAD_STRING => {
            "is a class without a name, or with a byte in its name that is not allowed"
        }
        reply::OUT_OF_RANGE => "has an address or a reference outside the machine's memory",
        reply::NULL_REF => "has a reference that is null",
        reply::EMPTY_SLOT => "names its class by a slot that nothing has filled yet",
        reply::HASH_BITS => "has hash bits of its own though all objects are hashed",
        reply::BAD_COUNT => "has a count, a length or a class size that is out of range",
        reply::NO_ENTRY => "is the first of its class, and the list of classes is full",
        _ => "was refused",
    };
    format!("The record at {} {why}.", at(place))
}
