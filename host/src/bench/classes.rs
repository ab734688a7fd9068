//! Measures how long a text takes to find the classes of its rows: many classes, then objects of the last of them or of the
//! first; and many classes of which the last or the first is that of char arrays, then char arrays.

use crate::clock::ratio;
use crate::heap::Heap;
use crate::text::TextTimes;
use std::time::Duration;

/// How many classes there are, and how many objects or arrays.
const COUNT: usize = 20_000;
const ROUNDS: usize = 25;

/// Generates so many classes, and as many rows of the class with the given number.
type MakeHeap = fn(usize, usize) -> Heap;

const KINDS: [(&str, MakeHeap); 2] = [
    ("objects", Heap::of_one_class),
    ("char arrays", Heap::of_char_arrays),
];

/// Measures a heap whose rows have the last class and one whose rows have the first, in turn.
fn measure(heap: MakeHeap) -> [TextTimes; 2] {
    let heaps = [heap(COUNT, COUNT - 1), heap(COUNT, 0)];
    let mut times = [TextTimes::NONE; 2];
    for _ in 0..ROUNDS {
        for (heap, times) in heaps.iter().zip(&mut times) {
            times.measure(heap);
        }
    }
    times
}

/// Measures and prints the table.
pub fn print_table() {
    println!("milliseconds of processor time for the text of {COUNT} classes and {COUNT} rows of one class, the last of them or the first; wanted: objects at most 3 times as long");
    println!(
        "| rows | text: last class | first | ratio | size query: last class | first | ratio |"
    );
    println!("|---|---|---|---|---|---|---|");
    for (name, heap) in KINDS {
        let [last, first] = measure(heap);
        let pair = |last: Duration, first: Duration| {
            let [l, f] = [last, first].map(|time| time.as_secs_f64() * 1e3);
            format!("{l:.2} | {f:.2} | {:.2}", ratio(last, first))
        };
        println!(
            "| {name} | {} | {} |",
            pair(last.text, first.text),
            pair(last.size, first.size)
        );
    }
}
