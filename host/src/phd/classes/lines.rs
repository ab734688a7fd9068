//! The lines of a report on classes. The objects and the object arrays of a class word are two lines: which of the rows of a class
//! summary are arrays is counted here, from the rows.

use super::names;
use crate::dump::Dump;
use phd_host::row::{kind, ADDRESS, CLASS, COUNT, KIND, NAME_LENGTH, NAME_PLACE, ROW_LEN, SIZE};
use phd_host::summary::{mark, Summary};
use phd_host::word_map::WordMap;

/// What a line counts.
#[derive(Clone, Copy, PartialEq, Eq, PartialOrd, Ord, Debug)]
pub enum Kind {
    Object,
    ObjectArray,
    PrimitiveArray,
}

impl Kind {
    /// Returns the name of the kind.
    pub fn name(self) -> &'static str {
        match self {
            Kind::Object => "object",
            Kind::ObjectArray => "object array",
            Kind::PrimitiveArray => "primitive array",
        }
    }
}

/// The objects or the arrays of a class.
pub struct Line {
    pub kind: Kind,
    /// The class word: of an object array that of its elements. Primitive arrays have none.
    pub class: Option<u64>,
    /// The name as the dump has it, or nothing if the class row was not read.
    pub raw: Option<String>,
    pub instances: u64,
    pub refs: u64,
    /// The bytes, or nothing if these are objects whose class row was not read.
    pub bytes: Option<u64>,
    /// The most that the bytes can be, if that is known: the bytes themselves, or a bound (see `bounds`).
    pub at_most: Option<u64>,
}

impl Line {
    /// Returns how many of the instances have unknown bytes: none or all.
    pub fn waiting(&self) -> u64 {
        match self.bytes {
            Some(_) => 0,
            None => self.instances,
        }
    }

    /// Returns the name as the dump has it if `raw` is set, otherwise as Java has it. A class whose row was not read is named by
    /// its address, of `digits` digits.
    pub fn name(&self, raw: bool, digits: usize) -> String {
        match &self.raw {
            Some(name) if raw => name.clone(),
            Some(name) => names::java(name),
            None => {
                let class = format!("class at 0x{:0digits$X}", self.class.unwrap_or(0));
                match self.kind {
                    Kind::Object => class,
                    _ => format!("array of {class}"),
                }
            }
        }
    }
}

/// What is counted of the object arrays of a class word.
#[derive(Clone, Copy, Default)]
struct Arrays {
    instances: u64,
    refs: u64,
    bytes: u64,
}

/// What the rows have that the class summaries have not.
#[derive(Default)]
struct Rows {
    /// The place and length of the name of the first class row at each address.
    names: WordMap<(u64, u64)>,
    /// The object arrays of each class word.
    arrays: WordMap<Arrays>,
}

impl Rows {
    fn of(dump: &Dump) -> Rows {
        let mut rows = Rows::default();
        for row in dump.rows().chunks_exact(ROW_LEN) {
            match row[KIND] {
                kind::CLASS => {
                    let name = (row[NAME_PLACE], row[NAME_LENGTH]);
                    rows.names.entry(row[ADDRESS]).or_insert(name);
                }
                kind::OBJECT_ARRAY => {
                    let arrays = rows.arrays.entry(row[CLASS]).or_default();
                    arrays.instances += 1;
                    arrays.refs += row[COUNT];
                    arrays.bytes += 4 * row[SIZE];
                }
                _ => (),
            }
        }
        rows
    }
}

/// Returns the lines of a dump, in order of first use, and whether any class row was read. Bytes that are unknown have no bound
/// yet.
pub fn of(dump: &Dump) -> (Vec<Line>, bool) {
    let rows = Rows::of(dump);
    let mut lines = Vec::with_capacity(dump.summaries().len());
    for summary in dump.summaries() {
        if summary.mark == mark::PRIMITIVE_TYPE {
            lines.push(primitive_arrays(summary));
            continue;
        }
        let name = rows.names.get(&summary.class);
        let name = name.map(|(place, length)| dump.string(*place, *length));
        let arrays = rows.arrays.get(&summary.class).copied();
        let arrays = arrays.unwrap_or_default();
        if summary.instances > arrays.instances {
            lines.push(objects(summary, arrays, name.clone()));
        }
        if arrays.instances > 0 {
            lines.push(object_arrays(summary.class, arrays, name));
        }
    }
    (lines, !rows.names.is_empty())
}

/// Returns the line of the arrays of a primitive type.
fn primitive_arrays(summary: &Summary) -> Line {
    Line {
        kind: Kind::PrimitiveArray,
        class: None,
        raw: Some(names::primitive_array(summary.class)),
        instances: summary.instances,
        refs: summary.refs,
        bytes: Some(summary.bytes),
        at_most: Some(summary.bytes),
    }
}

/// Returns the line of the objects of a class: what its summary has without its arrays.
fn objects(summary: &Summary, arrays: Arrays, name: Option<String>) -> Line {
    let bytes = match summary.waiting {
        0 => Some(summary.bytes - arrays.bytes),
        _ => None,
    };
    Line {
        kind: Kind::Object,
        class: Some(summary.class),
        raw: name,
        instances: summary.instances - arrays.instances,
        refs: summary.refs - arrays.refs,
        bytes,
        at_most: bytes,
    }
}

/// Returns the line of the object arrays of a class.
fn object_arrays(class: u64, arrays: Arrays, element: Option<String>) -> Line {
    Line {
        kind: Kind::ObjectArray,
        class: Some(class),
        raw: element.map(|element| names::object_array(&element)),
        instances: arrays.instances,
        refs: arrays.refs,
        bytes: Some(arrays.bytes),
        at_most: Some(arrays.bytes),
    }
}
