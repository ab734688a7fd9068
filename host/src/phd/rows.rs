//! Prints the rows of a dump as a table, each with the offset of its record's tag in hexadecimal.

use crate::dump::Dump;
use crate::error::Error;
use crate::output::{self, Sent};
use phd_host::row::{
    hash_kind, kind, ADDRESS, CLASS, COUNT, FIRST, HASH, HASH_KIND, KIND, LENGTH, NAME_LENGTH,
    NAME_PLACE, OFFSET, ROW_LEN, SIZE, TYPE,
};

/// The kinds of rows, in the order of their numbers.
const KINDS: [&str; 4] = ["class", "object", "object array", "primitive array"];

/// The types of primitive arrays, in the order of their numbers, as in classic text.
const TYPES: [&str; 8] = ["[Z", "[C", "[F", "[D", "[B", "[S", "[I", "[J"];

const HEADING: [&str; 11] = [
    "row",
    "offset",
    "kind",
    "address",
    "class",
    "hash",
    "first",
    "refs",
    "size",
    "length",
    "name or type",
];

/// The table is printed in parts of about this many bytes.
const PART: usize = 1 << 16;

/// Prints all rows that were read.
pub fn print(dump: &Dump) -> Result<Sent, Error> {
    if dump.records() == 0 {
        return output::print("\n  No row was read.\n");
    }
    let digits = dump.bits() as usize / 4;
    let mut text = format!("\n{}", line(&HEADING.map(String::from), digits));
    for (index, row) in dump.rows().chunks_exact(ROW_LEN).enumerate() {
        text += &line(&cells(dump, index, row, digits), digits);
        if text.len() >= PART {
            if output::print(&text)? == Sent::NoReader {
                return Ok(Sent::NoReader);
            }
            text.clear();
        }
    }
    output::print(&text)
}

/// Returns the cells of a row. Addresses have `digits` digits.
fn cells(dump: &Dump, index: usize, row: &[u64], digits: usize) -> [String; 11] {
    let address = |number: u64| format!("0x{number:0digits$X}");
    [
        index.to_string(),
        offset(row[OFFSET]),
        KINDS[row[KIND] as usize - 1].into(),
        address(row[ADDRESS]),
        address(row[CLASS]),
        hash(row[HASH_KIND], row[HASH]),
        row[FIRST].to_string(),
        row[COUNT].to_string(),
        row[SIZE].to_string(),
        row[LENGTH].to_string(),
        match row[KIND] {
            kind::CLASS => {
                let name = dump.string(row[NAME_PLACE], row[NAME_LENGTH]);
                format!("{name} at {}", offset(row[NAME_PLACE]))
            }
            kind::PRIMITIVE_ARRAY => TYPES[row[TYPE] as usize].into(),
            _ => String::new(),
        },
    ]
}

/// Formats a place in a dump; eight digits hold every place.
fn offset(place: u64) -> String {
    format!("0x{place:08X}")
}

/// Formats a hash by its kind.
fn hash(kind: u64, hash: u64) -> String {
    match kind {
        hash_kind::HASHED => "hashed".into(),
        hash_kind::INT => format!("0x{hash:08X}"),
        hash_kind::SHORT => format!("0x{hash:04X}"),
        _ => "none".into(),
    }
}

/// Formats a line of the table.
fn line(cells: &[String; 11], digits: usize) -> String {
    let [index, offset, kind, address, class, hash, first, count, size, length, name] = cells;
    let width = digits + 2;
    let line = format!(
        "{index:>12}  {offset:<10}  {kind:<15}  {address:<width$}  {class:<width$}  {hash:<10}\
         {first:>12}{count:>12}{size:>12}{length:>12}  {name}"
    );
    format!("{}\n", line.trim_end())
}
