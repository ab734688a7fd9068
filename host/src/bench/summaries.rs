//! Measures how long a read with class summaries takes compared with a read without them, and compared with the plain
//! implementation, by the number of records: heaps like a real one, and heaps of objects of random classes.

use crate::clock::{keep_least, measure_rounds, per_record, ratio};
use crate::heap::Heap;
use crate::objects::{ClassChoice, Order};
use phd_host::answer::{Answer, CLASSES, PLACE, REFS};
use phd_host::row::ROW_LEN;
use phd_host::summary::Summary;
use phd_host::{library, plain, reply};
use std::time::Duration;

/// The heaps: a name, how many classes there are, and where; or nothing of these for a heap like a real one.
const HEAPS: [(&str, Option<(usize, Order)>); 5] = [
    ("usual", None),
    ("3000 classes first", Some((3_000, Order::ClassesFirst))),
    ("3000 classes last", Some((3_000, Order::ClassesLast))),
    ("20000 classes first", Some((20_000, Order::ClassesFirst))),
    ("20000 classes last", Some((20_000, Order::ClassesLast))),
];

/// The least times of a read of one dump: without class summaries, with them, and with them by the plain implementation.
struct Times {
    entries: usize,
    without: Duration,
    with: Duration,
    plain: Duration,
}

/// Returns the dump of a heap.
fn dump_of(heap: &Heap) -> Vec<u8> {
    let mut answer = [0; 16];
    library::write_size(&heap.tables(), &mut answer);
    let mut dump = vec![0; answer[PLACE] as usize];
    let reply = library::write(&heap.tables(), &mut dump, &mut answer);
    assert_eq!(reply, reply::DONE, "the heap is written");
    dump
}

/// Measures the three reads in turn, and checks that all give the same tables and both lists are the same.
fn measure(heap: &Heap) -> Times {
    let dump = dump_of(heap);
    let rows_len = heap.rows.len();
    let records = rows_len / ROW_LEN;
    let (mut rows, mut refs) = (vec![1; rows_len], vec![1; heap.refs.len()]);
    let mut list = vec![Summary::default(); records.min(1 << 16)];
    let mut other = list.clone();
    let mut answer: Answer = [0; 16];
    let expected = [
        reply::DONE,
        dump.len() as u64,
        records as u64,
        refs.len() as u64,
    ];
    let mut times = Times {
        entries: 0,
        without: Duration::MAX,
        with: Duration::MAX,
        plain: Duration::MAX,
    };
    measure_rounds(records, || {
        keep_least(&mut times.without, || {
            library::read_tables(&dump, &mut rows, &mut refs, &mut answer);
        });
        assert_eq!(answer[..=REFS], expected);
        keep_least(&mut times.with, || {
            library::read(&dump, &mut rows, &mut refs, &mut list, &mut answer);
        });
        assert_eq!(answer[..=REFS], expected);
        times.entries = answer[CLASSES] as usize;
        keep_least(&mut times.plain, || {
            plain::read(&dump, &mut rows, &mut refs, &mut other, &mut answer);
        });
        assert_eq!(answer[..=REFS], expected);
        assert!(list == other, "both sides give the same list");
    });
    times
}

/// Measures and prints the table for these numbers of records. Leaves out heaps with more classes than objects.
pub fn print_table(sizes: &[usize]) {
    println!("reads with class summaries: nanoseconds of processor time for a record, the least of several rounds; wanted: at most 1.5 times a read without them");
    println!("| heap | records | entries | without summaries | with them | ratio | with them: plain | library divided by plain |");
    println!("|---|---|---|---|---|---|---|---|");
    for (name, objects) in HEAPS {
        for &n in sizes {
            let heap = match objects {
                None => Heap::of(n),
                Some((classes, _)) if 2 * classes > n => continue,
                Some((classes, order)) => Heap::of_objects(n, classes, order, ClassChoice::Random),
            };
            let t = measure(&heap);
            println!(
                "| {name} | {n} | {} | {:.1} | {:.1} | {:.2} | {:.1} | {:.2} |",
                t.entries,
                per_record(t.without, n),
                per_record(t.with, n),
                ratio(t.with, t.without),
                per_record(t.plain, n),
                ratio(t.with, t.plain),
            );
        }
    }
}
