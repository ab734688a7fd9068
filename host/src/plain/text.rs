//! Writes checked tables as classic text: once to compute its size, then into the output if that is large enough.

use super::{
    appender, CheckedTables, Reply, Row, Stop, CLASS, OBJECT, OBJECT_ARRAY, PRIMITIVE_ARRAY,
};
use std::collections::HashMap;

/// The names of the primitive array types.
const PRIMITIVES: [&[u8]; 8] = [b"[Z", b"[C", b"[F", b"[D", b"[B", b"[S", b"[I", b"[J"];

/// Computes the size of the text.
pub(super) fn size(tables: &CheckedTables) -> Result<usize, Stop> {
    compute_size(tables, &Classes::of(tables))
}

/// Writes the text and returns its size.
pub(super) fn text(tables: &CheckedTables, out: &mut [u8]) -> Result<usize, Stop> {
    let classes = Classes::of(tables);
    let size = compute_size(tables, &classes)?;
    if size > out.len() {
        return Err((Reply::NoOutput, 0));
    }
    write_text(tables, &classes, appender(out))?;
    Ok(size)
}

/// Computes the size of the text, given the class rows.
fn compute_size(tables: &CheckedTables, classes: &Classes) -> Result<usize, Stop> {
    let mut size = 0;
    write_text(tables, classes, |bytes| size += bytes.len())?;
    Ok(size)
}

/// What the text needs of a class row.
struct Class<'a> {
    name: &'a [u8],
    size: u64,
}

/// The class rows, by address and by name.
struct Classes<'a> {
    /// The first class row at each address.
    at: HashMap<u64, Class<'a>>,
    /// The address of the first class row that has the name of each primitive array type.
    primitives: [Option<u64>; 8],
}

impl<'a> Classes<'a> {
    /// Collects the class rows of the tables.
    fn of(tables: &CheckedTables<'a>) -> Classes<'a> {
        let mut classes = Classes {
            at: HashMap::new(),
            primitives: [None; 8],
        };
        for row in tables.rows().filter(|row| row.kind == CLASS) {
            let name = tables.name(&row);
            classes.at.entry(row.address).or_insert(Class {
                name,
                size: row.size,
            });
            if let Some(primitive) = PRIMITIVES.iter().position(|&known| known == name) {
                classes.primitives[primitive].get_or_insert(row.address);
            }
        }
        classes
    }
}

/// Writes the whole text to the sink, piece by piece. Refuses the first row whose class is missing.
fn write_text(
    tables: &CheckedTables,
    classes: &Classes,
    sink: impl FnMut(&[u8]),
) -> Result<(), Stop> {
    let mut page = Page {
        digits: tables.header.bits as usize / 4,
        sink,
    };
    let mut counts = Counts::default();
    page.write(b"// Version: ");
    page.write(tables.vm());
    page.write(b"\n");
    for (index, row) in tables.rows().enumerate() {
        page.row(tables, classes, &row)
            .ok_or((Reply::NoClass, index as u64))?;
        counts.add(&row);
    }
    page.trailers(&counts);
    Ok(())
}

/// What the trailers of a text count.
#[derive(Default)]
struct Counts {
    /// The rows of each kind, by its number.
    kinds: [u64; 5],
    refs: u64,
    nulls: u64,
}

impl Counts {
    /// Counts a row.
    fn add(&mut self, row: &Row) {
        self.kinds[row.kind as usize] += 1;
        self.refs += row.count;
        if row.kind == OBJECT_ARRAY {
            self.nulls += row.length - row.count;
        }
    }
}

/// The state of writing a text.
struct Page<P> {
    /// How many hexadecimal digits an address has.
    digits: usize,
    /// Receives the bytes of the text.
    sink: P,
}

impl<P: FnMut(&[u8])> Page<P> {
    /// Writes the two lines of a row. Returns nothing if its class is missing.
    fn row(&mut self, tables: &CheckedTables, classes: &Classes, row: &Row) -> Option<()> {
        self.address(row.address);
        let mut class_address = row.class;
        match row.kind {
            CLASS => self.kind(0, b"] CLS ", &[tables.name(row)]),
            OBJECT => {
                let class = classes.at.get(&row.class)?;
                self.kind(class.size, b"] OBJ ", &[class.name]);
            }
            OBJECT_ARRAY => {
                let name = classes.at.get(&row.class)?.name;
                if name.starts_with(b"[") {
                    self.kind(row.size * 4, b"] OBJ ", &[b"[", name]);
                } else {
                    self.kind(row.size * 4, b"] OBJ ", &[b"[L", name, b";"]);
                }
            }
            _ => {
                let primitive = row.primitive as usize;
                class_address = classes.primitives[primitive].unwrap_or(0);
                self.kind(row.size * 4, b"] OBJ ", &[PRIMITIVES[primitive]]);
            }
        }
        self.address(class_address);
        for &to in tables.refs(row) {
            self.write(b" ");
            self.address(to);
        }
        self.write(b"\n");
        Some(())
    }

    /// Writes the two trailers.
    fn trailers(&mut self, counts: &Counts) {
        let kinds = &counts.kinds;
        self.write(b"// Breakdown - Classes: ");
        self.decimal(kinds[CLASS as usize]);
        self.write(b", Objects: ");
        self.decimal(kinds[OBJECT as usize]);
        self.write(b", ObjectArrays: ");
        self.decimal(kinds[OBJECT_ARRAY as usize]);
        self.write(b", PrimitiveArrays: ");
        self.decimal(kinds[PRIMITIVE_ARRAY as usize]);
        self.write(b"\n// EOF:  Total 'Objects',Refs(null) : ");
        self.decimal(kinds.iter().sum());
        self.write(b",");
        self.decimal(counts.refs + counts.nulls);
        self.write(b"(");
        self.decimal(counts.nulls);
        self.write(b")\n");
    }

    /// Writes the rest of a row's first line: its size in bytes, the mark and the parts of its type.
    fn kind(&mut self, bytes: u64, mark: &[u8], parts: &[&[u8]]) {
        self.write(b" [");
        self.decimal(bytes);
        self.write(mark);
        for part in parts {
            self.write(part);
        }
        self.write(b"\n");
    }

    /// Writes an address in upper-case hexadecimal.
    fn address(&mut self, address: u64) {
        let mut line = *b"0x0000000000000000";
        let line = &mut line[..2 + self.digits];
        let mut rest = address;
        for digit in line[2..].iter_mut().rev() {
            *digit = b"0123456789ABCDEF"[(rest % 16) as usize];
            rest /= 16;
        }
        self.write(line);
    }

    /// Writes a number in decimal.
    fn decimal(&mut self, number: u64) {
        let mut digits = [b'0'; 20];
        let mut first = digits.len();
        let mut rest = number;
        while rest > 0 || first == digits.len() {
            first -= 1;
            digits[first] = b'0' + (rest % 10) as u8;
            rest /= 10;
        }
        self.write(&digits[first..]);
    }

    /// Writes bytes as they are.
    fn write(&mut self, bytes: &[u8]) {
        (self.sink)(bytes);
    }
}
