//! Generates random good tables: rows of every kind, with gaps and references at the boundaries of every width, classes that
//! repeat so that the class cache is used, and class rows and names that a text must find.

use crate::class_index::{ROWS_WITHOUT, SAME_HASH};
use crate::names;
use crate::rng::Rng;
use crate::tables::*;

/// The gaps at which a width ends: byte, short, int, and the largest that are possible at all.
const BOUNDARIES: [i128; 8] = [0, 128, 128, 32_768, 1 << 30, 1 << 31, 1 << 61, 1 << 62];

/// The kinds of rows other than planned classes, each as often as it is listed.
const KINDS: [u64; 12] = [
    kind::CLASS,
    kind::OBJECT,
    kind::OBJECT,
    kind::OBJECT,
    kind::OBJECT,
    kind::OBJECT,
    kind::OBJECT,
    kind::OBJECT,
    kind::OBJECT_ARRAY,
    kind::OBJECT_ARRAY,
    kind::PRIMITIVE_ARRAY,
    kind::PRIMITIVE_ARRAY,
];

/// Returns good tables, one in ten with so many rows that a text may find their class rows in an index.
pub fn tables(rng: &mut Rng) -> OwnedTables {
    if !rng.one_in(10) {
        return small_tables(rng);
    }
    let many = 65 + rng.below(70);
    let count = rng.pick(&[63, 64, 65, 66, many, many, many, many]);
    tables_of(rng, count)
}

/// Returns good tables with at most about 40 rows, rarely 300.
pub fn small_tables(rng: &mut Rng) -> OwnedTables {
    let count = match rng.below(400) {
        0 => 300,
        1..=40 => rng.below(3),
        41..=240 => 1 + rng.below(12),
        _ => rng.below(40),
    };
    tables_of(rng, count)
}

/// Returns good tables with so many rows, or one more.
fn tables_of(rng: &mut Rng, count: u64) -> OwnedTables {
    let mut generator = Generator::new(rng, count > 40);
    for (kind, address) in generator.plan(count) {
        generator.row(kind, address);
    }
    generator.finish()
}

/// The state of generating tables.
struct Generator<'a> {
    rng: &'a mut Rng,
    /// The highest address.
    max_address: u64,
    tables: OwnedTables,
    /// The class words that rows may have.
    classes: Vec<u64>,
    /// The places and lengths of the names.
    names: Vec<(u64, u64)>,
    /// The address of the row before, and the class word of the last object.
    previous: u64,
    last_class: u64,
    /// Whether objects and object arrays have two class words in turn, and which of the two is next.
    alternating: bool,
    turn: usize,
    /// One in this many rows has a hash.
    hash_interval: u64,
}

impl<'a> Generator<'a> {
    fn new(rng: &'a mut Rng, large: bool) -> Generator<'a> {
        let wide = rng.one_in(2);
        let max_address = if wide { u64::MAX - 3 } else { 0xFFFF_FFFC };
        let mut bytes = rng.bytes(3);
        let mut header = names::header(rng, &mut bytes);
        header[header::BITS] = if wide { 64 } else { 32 };
        let names = names::pool(rng, &mut bytes, large);
        let tables = OwnedTables {
            header,
            rows: Vec::new(),
            refs: Vec::new(),
            names: bytes,
        };
        let hash_interval = rng.pick(&[2, 6, 100]);
        let alternating = rng.one_in(6);
        Generator {
            rng,
            max_address,
            tables,
            classes: Vec::new(),
            names,
            previous: 0,
            last_class: 0,
            alternating,
            turn: 0,
            hash_interval,
        }
    }

    /// Returns the kinds of the rows, and the addresses of the classes: usually each class word has its class row, sometimes one
    /// has two.
    fn plan(&mut self, count: u64) -> Vec<(u64, Option<u64>)> {
        self.choose_classes(count);
        let mut plan = Vec::new();
        if count > 0 && !self.rng.one_in(5) {
            let classes = self.classes.iter().take(count as usize);
            plan.extend(classes.map(|class| (kind::CLASS, Some(*class))));
            self.classes.truncate(plan.len());
            if self.rng.one_in(3) {
                plan.push((kind::CLASS, Some(self.rng.pick(&self.classes))));
            }
        } else {
            self.classes.push(self.rng.any() & (self.max_address + 3));
        }
        while (plan.len() as u64) < count {
            plan.push((self.rng.pick(&KINDS), None));
        }
        match self.rng.below(8) {
            0..=3 => {
                for index in (1..plan.len()).rev() {
                    plan.swap(index, self.rng.index(index + 1));
                }
            }
            // The planned class rows come last, in the other order.
            4 => plan.reverse(),
            _ => (),
        }
        plan
    }

    /// Chooses the class words: up to seven near each other, or for many rows often many, and then often such as share a
    /// bucket of a text's class index.
    fn choose_classes(&mut self, count: u64) {
        let base = self.rng.any() & self.max_address;
        if count <= ROWS_WITHOUT as u64 || self.rng.one_in(2) {
            for _ in 0..1 + self.rng.below(7) {
                let class = self.nearby(base);
                self.classes.push(class);
            }
            return;
        }
        let many = 2 + self.rng.below(100);
        let apart = if self.tables.is_wide() && self.rng.one_in(2) {
            SAME_HASH
        } else {
            4 * (1 + self.rng.below(100))
        };
        let base = base / 2 & !3;
        self.classes.extend((0..many).map(|at| base + at * apart));
    }

    /// Appends a row.
    fn row(&mut self, kind: u64, address: Option<u64>) {
        let mut row: Row = [0; ROW_LEN];
        row[KIND] = kind;
        row[ADDRESS] = address.unwrap_or_else(|| self.nearby(self.previous));
        (row[HASH_KIND], row[HASH]) = self.hash(kind);
        row[FIRST] = self.tables.refs.len() as u64;
        if kind != kind::PRIMITIVE_ARRAY {
            row[CLASS] = self.class(kind);
            row[COUNT] = self.count();
        }
        match kind {
            kind::CLASS => {
                row[SIZE] = self.amount(0x7FFF_FFFF);
                (row[NAME_PLACE], row[NAME_LENGTH]) = self.rng.pick(&self.names);
            }
            kind::OBJECT_ARRAY => {
                row[SIZE] = self.amount(0xFFFF_FFFF);
                row[LENGTH] = row[COUNT].max(self.amount(0x7FFF_FFFF));
            }
            kind::PRIMITIVE_ARRAY => {
                row[SIZE] = self.amount(0xFFFF_FFFF);
                row[LENGTH] = self.amount(0x7FFF_FFFF);
                row[TYPE] = self.rng.below(8);
            }
            _ => self.last_class = row[CLASS],
        }
        for _ in 0..row[COUNT] {
            let to = self.nearby(row[ADDRESS]);
            self.tables.refs.push(if to == 0 { 4 } else { to });
        }
        let any = self.rng.any();
        row[OFFSET] = self.rng.pick(&[0, 1, u64::MAX, any]);
        self.previous = row[ADDRESS];
        self.tables.rows.extend(row);
    }

    /// Returns a class word, often the last one again, or for all objects and object arrays the next of two in turn.
    fn class(&mut self, kind: u64) -> u64 {
        if self.alternating && kind != kind::CLASS && self.classes.len() > 1 {
            self.turn = 1 - self.turn;
            return self.classes[self.turn];
        }
        if self.rng.one_in(3) && self.classes.contains(&self.last_class) {
            return self.last_class;
        }
        self.rng.pick(&self.classes)
    }

    /// Returns a hash kind and a hash.
    fn hash(&mut self, kind: u64) -> (u64, u64) {
        if self.tables.all_hashed() {
            let any = self.rng.any() & 0xFFFF;
            let hash = self.rng.pick(&[0, 1, 0x7FFF, 0x8000, 0xFFFF, any]);
            return (hash_kind::SHORT, hash);
        }
        if !self.rng.one_in(self.hash_interval) {
            return (hash_kind::NONE, 0);
        }
        if kind != kind::CLASS && self.rng.one_in(2) {
            return (hash_kind::HASHED, 0);
        }
        let any = self.rng.any() & 0xFFFF_FFFF;
        let boundaries = [0, 1, 0x7FFF_FFFF, 0x8000_0000, 0xFFFF_FFFF, any];
        (hash_kind::INT, self.rng.pick(&boundaries))
    }

    /// Returns a count of references.
    fn count(&mut self) -> u64 {
        match self.rng.below(40) {
            0..=13 => 0,
            14..=27 => 1 + self.rng.below(3),
            28..=35 => 3 + self.rng.below(3),
            36..=38 => 6 + self.rng.below(4),
            _ => self.rng.pick(&[10, 20, 20, 130]),
        }
    }

    /// Returns a size or a length up to `max`, at a boundary or anywhere.
    fn amount(&mut self, max: u64) -> u64 {
        let boundary = self
            .rng
            .pick(&[1, 128, 256, 32_768, 65_536, 1 << 31, 1 << 32]);
        let amount = match self.rng.below(4) {
            0 => self.rng.below(100),
            1 => self.rng.any() >> (32 + self.rng.below(32)),
            _ => boundary + self.rng.below(3) - 1,
        };
        amount.min(max)
    }

    /// Returns an address at a gap from another: a boundary value, a small one, or any.
    fn nearby(&mut self, from: u64) -> u64 {
        let boundary = self.rng.pick(&BOUNDARIES) + i128::from(self.rng.below(4)) - 2;
        let far = self.rng.any() & self.max_address;
        let gap = match self.rng.below(12) {
            0..=4 => 1 + i128::from(self.rng.below(30)),
            5..=10 => boundary,
            _ => {
                let max = self.max_address;
                return self.rng.pick(&[far, far, far, 0, 4, max, max - 4]);
            }
        };
        let side = if self.rng.one_in(3) { -4 } else { 4 };
        let fits = |to: i128| u64::try_from(to).ok().filter(|to| *to <= self.max_address);
        let there = fits(i128::from(from) + side * gap);
        there
            .or_else(|| fits(i128::from(from) - side * gap))
            .unwrap_or(far)
    }

    /// Returns the tables, sometimes with references that no row has, and with more numbers that are too few for a row.
    fn finish(self) -> OwnedTables {
        let Generator {
            rng, mut tables, ..
        } = self;
        if rng.one_in(4) {
            tables.refs.extend((0..rng.below(3)).map(|at| at * 3));
        }
        if rng.one_in(4) {
            tables
                .rows
                .extend((0..rng.below(ROW_LEN as u64)).map(|at| at * 7));
        }
        tables
    }
}
