//! Measures how fast the proved library is compared with the plain implementation, on the same input and in the same run.
//! Prints a table of times and ratios, then one of reads with class summaries, then tables of the text: how long it takes to find
//! classes, and how long it takes compared with the plain implementation and with copying its bytes. Run by hand, in a release
//! build.

mod classes;
mod clock;
mod heap;
mod objects;
mod summaries;
mod text;
mod text_ratios;

use clock::{keep_least, per_record, ratio};
use heap::{Heap, HEADER};
use phd_host::answer::{Answer, PLACE, REFS};
use phd_host::row::ROW_LEN;
use phd_host::tables::Tables;
use phd_host::{library, plain, reply};
use std::time::Duration;
use text::TextTimes;

/// The least times for a heap of one size, by operation. A pair is the library and the plain implementation.
struct Times {
    records: usize,
    dump: usize,
    tables: usize,
    read: [Duration; 2],
    write: [Duration; 2],
    write_size: Duration,
    copy: Duration,
    text: TextTimes,
}

type Read = fn(&[u8], &mut [u64], &mut [u64], &mut Answer) -> u64;
type Write = fn(&Tables, &mut [u8], &mut Answer) -> u64;

const READS: [Read; 2] = [library::read_tables, plain::read_tables];
const WRITES: [Write; 2] = [library::write, plain::write];

impl Times {
    /// Returns times that any measured one replaces.
    fn new(heap: &Heap, dump: &[u8]) -> Times {
        Times {
            records: heap.rows.len() / ROW_LEN,
            dump: dump.len(),
            tables: 8 * (heap.rows.len() + heap.refs.len()),
            read: [Duration::MAX; 2],
            write: [Duration::MAX; 2],
            write_size: Duration::MAX,
            copy: Duration::MAX,
            text: TextTimes::NONE,
        }
    }
}

/// The buffers that every round fills again.
struct Buffers {
    rows: Vec<u64>,
    refs: Vec<u64>,
    out: Vec<u8>,
}

/// Measures reading and writing of a heap by both implementations in turn, `rounds` times, and its text once.
fn measure(n: usize, rounds: usize) -> Times {
    let heap = Heap::of(n);
    let mut answer = [0; 16];
    library::write_size(&heap.tables(), &mut answer);
    let mut dump = vec![0; answer[PLACE] as usize];
    let reply = library::write(&heap.tables(), &mut dump, &mut answer);
    assert_eq!(reply, reply::DONE, "the heap is written");
    let mut buffers = Buffers {
        rows: vec![1; heap.rows.len()],
        refs: vec![1; heap.refs.len()],
        out: vec![1; dump.len()],
    };
    let mut times = Times::new(&heap, &dump);
    for _ in 0..rounds {
        time_round(&heap, &dump, &mut buffers, &mut times);
    }
    times.text.measure(&heap);
    times
}

/// Measures one round, and checks that both implementations give the same tables and the same dump.
fn time_round(heap: &Heap, dump: &[u8], buffers: &mut Buffers, times: &mut Times) {
    let Buffers { rows, refs, out } = buffers;
    let (records, size) = (times.records as u64, dump.len() as u64);
    let mut answer = [0; 16];
    for side in 0..READS.len() {
        keep_least(&mut times.read[side], || {
            READS[side](dump, rows, refs, &mut answer);
        });
        let expected = [reply::DONE, size, records, refs.len() as u64];
        assert_eq!(answer[..=REFS], expected);
        assert_eq!(*refs, heap.refs);
        keep_least(&mut times.write[side], || {
            WRITES[side](&tables_of(rows, refs, dump), out, &mut answer);
        });
        assert_eq!(answer[..=PLACE], [reply::DONE, size]);
        assert!(out == dump, "the dump is written as it was");
    }
    keep_least(&mut times.write_size, || {
        library::write_size(&tables_of(rows, refs, dump), &mut answer);
    });
    assert_eq!(answer[..=PLACE], [reply::DONE, size]);
    keep_least(&mut times.copy, || {
        rows.copy_from_slice(&heap.rows);
        refs.copy_from_slice(&heap.refs);
    });
    std::hint::black_box((&rows, &refs));
}

/// Returns the tables that were read from a dump.
fn tables_of<'a>(rows: &'a [u64], refs: &'a [u64], dump: &'a [u8]) -> Tables<'a> {
    Tables {
        header: HEADER,
        rows,
        refs,
        names: dump,
    }
}

/// Prints a line of the table.
fn print_line(t: &Times) {
    let side = |pair: &[Duration; 2]| {
        let [library, plain] = pair.map(|time| per_record(time, t.records));
        format!("{library:.1} | {plain:.1} | {:.2}", library / plain)
    };
    println!(
        "| {} | {} | {} | {} | {} | {:.2} | {:.1} | {:.3} s | {:.2} |",
        t.records,
        t.dump,
        t.tables,
        side(&t.read),
        side(&t.write),
        ratio(t.write_size, t.write[0]),
        per_record(t.copy, t.records),
        t.text.text.as_secs_f64(),
        ratio(t.text.size, t.text.text),
    );
}

/// Returns the time for a record at the largest size divided by that at 100,000.
fn growth(all: &[Times], pick: fn(&Times) -> Duration) -> Option<f64> {
    let at = all.iter().find(|t| t.records == 100_000)?;
    let last = all.last()?;
    Some(per_record(pick(last), last.records) / per_record(pick(at), at.records))
}

/// Returns the numbers of records to measure: those of the command line, or the usual four.
fn sizes() -> Result<Vec<usize>, String> {
    let arguments: Vec<String> = std::env::args().skip(1).collect();
    if arguments.is_empty() {
        return Ok(vec![10_000, 100_000, 1_000_000, 10_000_000]);
    }
    let size = |argument: &String| match argument.parse() {
        Ok(n) if n > 0 => Ok(n),
        _ => Err(format!("'{argument}' is no number of records")),
    };
    arguments.iter().map(size).collect()
}

fn main() {
    let sizes = sizes().unwrap_or_else(|why| {
        eprintln!("phd-bench: {why}");
        std::process::exit(2)
    });
    println!("nanoseconds of processor time for a record, the least of several rounds; below a ratio of 1 the proved library is the faster; a size query is the library's, divided by its own write or text");
    println!("| records | dump bytes | table bytes | read: library | plain | ratio | write: library | plain | ratio | size query | copy of the tables | text | size query |");
    println!("|---|---|---|---|---|---|---|---|---|---|---|---|---|");
    let mut all = Vec::new();
    for &n in &sizes {
        let rounds = (30_000_000 / n).clamp(5, 300);
        let times = measure(n, rounds);
        print_line(&times);
        all.push(times);
    }
    if let (Some(read), Some(write), Some(copy)) = (
        growth(&all, |t| t.read[0]),
        growth(&all, |t| t.write[0]),
        growth(&all, |t| t.copy),
    ) {
        println!("a record at the largest size over one at 100000: read {read:.2}, write {write:.2}, copy {copy:.2}");
    }
    summaries::print_table(&sizes);
    classes::print_table();
    text_ratios::print_tables(&sizes);
}
