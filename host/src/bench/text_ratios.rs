//! Measures how long a text takes compared with the plain implementation and with copying its bytes, by the number of rows; and
//! how long the text of objects of random classes takes compared with objects of one class.

use crate::clock::{keep_least, measure_rounds, per_record, ratio};
use crate::heap::{usual_classes, Heap};
use crate::objects::{ClassChoice, Order};
use crate::text::TextTimes;
use phd_host::answer::PLACE;
use phd_host::{library, plain, reply};
use std::time::Duration;

/// Generates a heap of so many rows.
type MakeHeap = fn(usize) -> Heap;

const HEAPS: [(&str, MakeHeap); 2] = [
    ("usual", Heap::of),
    ("random classes last", |n| {
        let classes = usual_classes(n);
        Heap::of_objects(n, classes, Order::ClassesLast, ClassChoice::Random)
    }),
];

/// The most rows of the heaps of random classes and of one class, and how many of them are class rows.
const ROWS: usize = 1_000_000;
const CLASSES: [(usize, &str, Order); 4] = [
    (3_000, "last", Order::ClassesLast),
    (3_000, "first", Order::ClassesFirst),
    (20_000, "first", Order::ClassesFirst),
    (50_000, "first", Order::ClassesFirst),
];

/// The least times for one heap: of the text by the library and by the plain implementation, and of copying it.
struct Times {
    bytes: usize,
    library: Duration,
    plain: Duration,
    copy: Duration,
}

/// Measures the text of a heap on both sides and the copy in turn, and checks that both sides give the same bytes.
fn measure(heap: &Heap, rows: usize) -> Times {
    let mut answer = [0; 16];
    library::text_size(&heap.tables(), &mut answer);
    let bytes = answer[PLACE] as usize;
    let mut times = Times {
        bytes,
        library: Duration::MAX,
        plain: Duration::MAX,
        copy: Duration::MAX,
    };
    let (mut out, mut other) = (vec![1; bytes], vec![2; bytes]);
    measure_rounds(rows, || {
        keep_least(&mut times.library, || {
            library::text(&heap.tables(), &mut out, &mut answer);
        });
        assert_eq!(answer[..=PLACE], [reply::DONE, bytes as u64]);
        keep_least(&mut times.plain, || {
            plain::text(&heap.tables(), &mut other, &mut answer);
        });
        assert_eq!(answer[..=PLACE], [reply::DONE, bytes as u64]);
        assert!(out == other, "both sides give the same text");
        keep_least(&mut times.copy, || other.copy_from_slice(&out));
        std::hint::black_box(&other);
    });
    times
}

/// Measures and prints both tables for these numbers of rows.
pub fn print_tables(sizes: &[usize]) {
    print_by_size(sizes);
    if let Some(most) = sizes.iter().max() {
        print_by_classes(ROWS.min(*most));
    }
}

/// Prints the table of the texts by the number of rows.
fn print_by_size(sizes: &[usize]) {
    println!("text: nanoseconds of processor time for a row, the least of several rounds; wanted: the library's divided by the plain one's below 1, divided by that of copying the text at most 4; of all sizes, the largest divided by the smallest at most 1.3");
    println!("| heap | rows | text bytes | library | plain | ratio | copy of the text | ratio |");
    println!("|---|---|---|---|---|---|---|---|");
    for (name, heap) in HEAPS {
        let mut by_row = Vec::new();
        for &n in sizes {
            let t = measure(&heap(n), n);
            let [library, plain, copy] =
                [t.library, t.plain, t.copy].map(|time| per_record(time, n));
            println!(
                "| {name} | {n} | {} | {library:.1} | {plain:.1} | {:.2} | {copy:.1} | {:.2} |",
                t.bytes,
                library / plain,
                library / copy
            );
            by_row.push(library);
        }
        let largest = by_row.iter().copied().fold(f64::MIN, f64::max);
        let smallest = by_row.iter().copied().fold(f64::MAX, f64::min);
        println!(
            "| {name} | all | | {:.2}, the largest divided by the smallest | | | | |",
            largest / smallest
        );
    }
}

/// Measures the heap of random classes and the heap of one class in turn.
fn measure_choices(heaps: &[Heap; 2], rows: usize) -> [TextTimes; 2] {
    let [random, one] = heaps;
    assert!(random.refs == one.refs && random.names == one.names);
    let mut times = [TextTimes::NONE; 2];
    measure_rounds(rows, || {
        for (heap, times) in heaps.iter().zip(&mut times) {
            times.measure(heap);
        }
    });
    times
}

/// Prints the table of the texts of objects of random classes and of one. Leaves out lines with more class rows than objects.
fn print_by_classes(rows: usize) {
    println!("milliseconds of processor time for the text of {rows} rows, objects of random classes or of one class; wanted with 3000 classes last: a ratio of at most 1.2");
    println!("| class rows | text: random classes | one class | ratio | size query: random classes | one class | ratio |");
    println!("|---|---|---|---|---|---|---|");
    for (classes, place, order) in CLASSES.into_iter().filter(|(n, ..)| 2 * n <= rows) {
        let heap = |choice| Heap::of_objects(rows, classes, order, choice);
        let heaps = [ClassChoice::Random, ClassChoice::One].map(heap);
        let [random, one] = measure_choices(&heaps, rows);
        let pair = |random: Duration, one: Duration| {
            let [r, o] = [random, one].map(|time| time.as_secs_f64() * 1e3);
            format!("{r:.2} | {o:.2} | {:.2}", ratio(random, one))
        };
        println!(
            "| {classes} {place} | {} | {} |",
            pair(random.text, one.text),
            pair(random.size, one.size)
        );
    }
}
