//! Compares reads with a list of class summaries on fixed dumps of many classes: more than an index of them can hold, and class
//! words that may have the same hash. The lists are exactly long enough, longer, or too short by one.

use crate::class_index::SAME_HASH;
use crate::encode;
use crate::rng::Rng;
use crate::summaries::{list_of, read_both, Capacity};
use crate::summary_tables::{arranged, tables_of, Entry, Order, ORDERS};
use phd_host::reply;
use Entry::{Array, Class, Object, Primitive};

/// Returns `count` class words, each `apart` from the one before.
fn words(count: usize, apart: u64) -> Vec<u64> {
    let first = 0x7_0000_0000;
    (0..count as u64).map(|at| first + apart * at).collect()
}

/// Returns the rows of `words`: two objects of each class word, every fifth of them an object array, in a changing order, with a
/// primitive array now and then. Every tenth class has no class row, and every eleventh has two.
fn entries(words: &[u64], order: Order, rng: &mut Rng) -> Vec<Entry> {
    let mut classes = Vec::new();
    for (at, word) in words.iter().enumerate() {
        let copies = match at {
            at if at % 10 == 9 => 0,
            at if at % 11 == 9 => 2,
            _ => 1,
        };
        classes.extend(std::iter::repeat_n(Class(*word), copies));
    }
    let mut others = Vec::new();
    for at in 0..2 * words.len() {
        let word = words[at * 7919 % words.len()];
        others.push(if at % 5 == 4 {
            Array(word)
        } else {
            Object(word)
        });
        if at % 100 == 50 {
            others.push(Primitive(rng.below(8)));
        }
    }
    arranged(rng, &classes, &others, order)
}

/// Reads the dump of these rows with a list that is exactly long enough, longer, and too short by one.
fn check(what: &str, entries: &[Entry], distinct: usize) {
    let mut rng = Rng::new(1);
    let tables = tables_of(entries, true, &mut rng);
    let dump = encode::canonical(&tables).bytes;
    for classes in [distinct, distinct + 100, distinct - 1] {
        let capacity = Capacity {
            rows: tables.rows.len(),
            refs: tables.refs.len(),
            classes,
        };
        let read = read_both(&dump, capacity, 7);
        let read = read.unwrap_or_else(|error| panic!("{what}, {classes} entries: {error}"));
        let expected = match classes < distinct {
            true => (reply::NO_ENTRY, classes),
            false => (reply::DONE, distinct),
        };
        assert_eq!((read.reply, list_of(&read).len()), expected, "{what}");
        if read.reply == reply::DONE {
            assert_eq!(read.row_count(), tables.count(), "{what}");
        }
    }
}

/// Returns how many entries the rows of these class words need.
fn distinct(words: &[u64], entries: &[Entry]) -> usize {
    let types = |primitive: &u64| entries.contains(&Primitive(*primitive));
    words.len() + (0..8).filter(types).count()
}

#[test]
fn more_classes_than_an_index_holds() {
    for count in [16_384, 25_000, 25_001, 30_000] {
        for order in ORDERS {
            let words = words(count, 256);
            let entries = entries(&words, order, &mut Rng::new(count as u64));
            let what = format!("{count} classes, {order:?}");
            check(&what, &entries, distinct(&words, &entries));
        }
    }
}

#[test]
fn class_words_with_the_same_hash() {
    let powers = (2..=40).map(|power| 1 << power);
    for apart in powers.chain([SAME_HASH, SAME_HASH + 4, 0x9E37_79B1 * 4]) {
        for order in [Order::First, Order::Last, Order::Anywhere] {
            let words = words(600, apart);
            let entries = entries(&words, order, &mut Rng::new(apart));
            let what = format!("600 classes {apart:#X} apart, {order:?}");
            check(&what, &entries, distinct(&words, &entries));
        }
    }
}

/// Objects of the last of many classes, and of classes that come in turn, each after a full list.
#[test]
fn many_objects_of_few_classes() {
    let words = words(20_000, 256);
    for (name, few) in [("last", &words[19_999..]), ("last two", &words[19_998..])] {
        let first = words.iter().map(|word| Object(*word));
        let again = few.iter().cycle().take(50_000).map(|word| Object(*word));
        let classes = words.iter().map(|word| Class(*word));
        let entries: Vec<Entry> = first.chain(again).chain(classes).collect();
        check(name, &entries, words.len());
    }
}
