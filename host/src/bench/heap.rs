//! Generates tables like those of a real heap, with any number of records: mostly small objects with up to three references,
//! some arrays, and up to a few thousand classes. Also tables of many classes and many equal records.

use phd_host::row::{kind, ROW_LEN};
use phd_host::tables::{Header, Tables};

/// The tables of a heap, with its name bytes.
pub struct Heap {
    pub rows: Vec<u64>,
    pub refs: Vec<u64>,
    pub names: Vec<u8>,
}

/// The header of every heap here: 64 bits, from OpenJ9, no VM string.
pub const HEADER: Header = [64, 0, 1, 0, 0, 0];

/// The addresses of the first class and of the first object.
const CLASSES: u64 = 0x7_0000_0000;
const OBJECTS: u64 = 0x7_0010_0000;

/// The address of the first record after many classes.
pub const OBJECTS_AFTER: u64 = 0x7_1000_0000;

/// The letters of the primitive types; the first eight classes are those of their arrays.
const PRIMITIVES: [u8; 8] = *b"ZCFDBSIJ";

/// The primitive type of char arrays.
const CHAR: u64 = 1;

/// A generator of random numbers (xorshift64) that gives the same in every run.
pub struct Rng(u64);

impl Rng {
    pub fn new() -> Rng {
        Rng(0x1234_5678_9ABC_DEF1)
    }

    fn next(&mut self) -> u64 {
        self.0 ^= self.0 << 13;
        self.0 ^= self.0 >> 7;
        self.0 ^= self.0 << 17;
        self.0
    }

    /// Returns a number below `limit`.
    pub fn below(&mut self, limit: u64) -> u64 {
        (self.next() >> 11) % limit
    }
}

/// The numbers of a row that differ here.
pub struct Record {
    pub kind: u64,
    pub class: u64,
    pub count: u64,
    pub size: u64,
    pub length: u64,
    pub primitive: u64,
}

/// Returns how many of `n` records are classes in a heap like a real one.
pub fn usual_classes(n: usize) -> usize {
    (n / 25).clamp(1, 3000)
}

impl Heap {
    /// Generates a heap of `n` records, at least one of them a class.
    pub fn of(n: usize) -> Heap {
        let classes = usual_classes(n);
        let mut heap = Heap::empty(n);
        let mut rng = Rng::new();
        for i in 0..classes {
            let name = match PRIMITIVES.get(i) {
                Some(letter) => format!("[{}", char::from(*letter)),
                None => format!("com/example/part{}/C{}", i % 40, i),
            };
            heap.class(i, &name, &mut rng);
        }
        let mut address = OBJECTS;
        let mut recent = [CLASSES; 4];
        for _ in classes..n {
            let record = next_record(classes as u64, &mut recent, &mut rng);
            heap.record(address, &record, &mut rng);
            address += 16 + 8 * rng.below(6);
        }
        heap
    }

    /// Generates `n` classes and `n` objects of class number `class`.
    pub fn of_one_class(n: usize, class: usize) -> Heap {
        let object = Record {
            kind: kind::OBJECT,
            class: Heap::class_address(class),
            count: 0,
            size: 0,
            length: 0,
            primitive: 0,
        };
        Heap::of_equal(n, |_| false, &object)
    }

    /// Generates `n` classes, of which number `class` is that of char arrays, and `n` char arrays.
    pub fn of_char_arrays(n: usize, class: usize) -> Heap {
        let array = Record {
            kind: kind::PRIMITIVE_ARRAY,
            class: 0,
            count: 0,
            size: 6,
            length: 3,
            primitive: CHAR,
        };
        Heap::of_equal(n, |i| i == class, &array)
    }

    /// Generates `n` classes and `n` equal records. All classes have names of the same length, except those of char arrays.
    fn of_equal(n: usize, is_char_array: impl Fn(usize) -> bool, record: &Record) -> Heap {
        let mut heap = Heap::empty(2 * n);
        let mut rng = Rng::new();
        for i in 0..n {
            let name = if is_char_array(i) {
                "[C".to_string()
            } else {
                format!("com/example/C{i:06}")
            };
            heap.class(i, &name, &mut rng);
        }
        for i in 0..n {
            heap.record(OBJECTS_AFTER + 16 * i as u64, record, &mut rng);
        }
        heap
    }

    /// Returns a heap without records, with memory for `n` of them.
    pub fn empty(n: usize) -> Heap {
        Heap {
            rows: Vec::with_capacity(n * ROW_LEN),
            refs: Vec::with_capacity(2 * n),
            names: Vec::new(),
        }
    }

    /// Returns the tables to write.
    pub fn tables(&self) -> Tables<'_> {
        Tables {
            header: HEADER,
            rows: &self.rows,
            refs: &self.refs,
            names: &self.names,
        }
    }

    /// Returns the address of class number `i`.
    pub fn class_address(i: usize) -> u64 {
        CLASSES + 256 * i as u64
    }

    /// Appends class number `i`.
    pub fn class(&mut self, i: usize, name: &str, rng: &mut Rng) {
        let place = self.names.len() as u64;
        self.names.extend_from_slice(name.as_bytes());
        let length = self.names.len() as u64 - place;
        let address = Heap::class_address(i);
        let first = self.refs.len() as u64;
        let count = rng.below(4);
        for _ in 0..count {
            self.refs.push(OBJECTS + 8 * rng.below(1000));
        }
        let superclass = if i == 0 { 0 } else { CLASSES };
        self.row(&[
            kind::CLASS,
            address,
            superclass,
            0,
            0,
            first,
            count,
            16 + 8 * (i as u64 % 9),
            0,
            place,
            length,
            0,
        ]);
    }

    /// Appends a record at an address, with references of which most are close to it.
    pub fn record(&mut self, address: u64, r: &Record, rng: &mut Rng) {
        let first = self.refs.len() as u64;
        for _ in 0..r.count {
            let near = rng.below(10) < 7;
            let distance = 8 * (1 + rng.below(if near { 4000 } else { 2_000_000 }));
            let ahead = rng.below(3) == 0;
            let to = if ahead {
                address + distance
            } else {
                address.saturating_sub(distance).max(OBJECTS)
            };
            self.refs.push(to);
        }
        self.row(&[
            r.kind,
            address,
            r.class,
            0,
            0,
            first,
            r.count,
            r.size,
            r.length,
            0,
            0,
            r.primitive,
        ]);
    }

    /// Appends a row that begins with these numbers; the rest are 0.
    fn row(&mut self, numbers: &[u64]) {
        let at = self.rows.len();
        self.rows.extend_from_slice(numbers);
        self.rows.resize(at + ROW_LEN, 0);
    }
}

/// Chooses the next record: of a hundred records about 82 are objects, 6 object arrays and 12 primitive arrays. Most objects
/// have a class that was used shortly before.
fn next_record(classes: u64, recent: &mut [u64; 4], rng: &mut Rng) -> Record {
    let what = rng.below(100);
    if what < 12 {
        return primitive_array(what < 9, rng);
    }
    let again = rng.below(100) < 85;
    let class = if again {
        recent[rng.below(4) as usize]
    } else {
        Heap::class_address(rng.below(classes) as usize)
    };
    if what < 18 {
        return object_array(class, rng);
    }
    if !again {
        recent.rotate_left(1);
        recent[3] = class;
    }
    let count = if rng.below(20) < 19 {
        rng.below(4)
    } else {
        4 + rng.below(6)
    };
    Record {
        kind: kind::OBJECT,
        class,
        count,
        size: 0,
        length: 0,
        primitive: 0,
    }
}

/// Returns a primitive array, a short or a long one.
fn primitive_array(short: bool, rng: &mut Rng) -> Record {
    let length = rng.below(if short { 100 } else { 5000 });
    Record {
        kind: kind::PRIMITIVE_ARRAY,
        class: 0,
        count: 0,
        size: 4 + length / 4,
        length,
        primitive: rng.below(8),
    }
}

/// Returns an object array with a few nulls.
fn object_array(class: u64, rng: &mut Rng) -> Record {
    let count = rng.below(12);
    let length = count + rng.below(5);
    Record {
        kind: kind::OBJECT_ARRAY,
        class,
        count,
        size: 4 + length,
        length,
        primitive: 0,
    }
}
