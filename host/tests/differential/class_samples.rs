//! Reads the sample dumps of `samples/classes` with class summaries, by the library and by the plain implementation, and compares what
//! both give with what `samples/make_classes.py` expects.

use phd_host::answer::{Answer, CLASSES, PLACE, REFS, ROWS};
use phd_host::row::ROW_LEN;
use phd_host::summary::Summary;
use phd_host::{library, plain};
use std::path::Path;

type Read = fn(&[u8], &mut [u64], &mut [u64], &mut [Summary], &mut Answer) -> u64;

/// How many readings the samples have, at least.
const READINGS: usize = 150;

/// What the list holds before a read, to see that entries which are not in use stay as they were.
const BEFORE: Summary = Summary {
    class: 1,
    mark: 2,
    instances: 3,
    bytes: 4,
    refs: 5,
    waiting: 6,
};

/// Returns the numbers of a line, which are its words that are numbers.
fn numbers(line: &str) -> Vec<usize> {
    let words = line.split(' ');
    words.filter_map(|word| word.parse().ok()).collect()
}

/// Returns the lines for the answer and the entries of a reading, given the line with its capacities.
fn lines(read: Read, dump: &[u8], capacities: &str) -> String {
    let [row_capacity, ref_capacity, length] = numbers(capacities)[..] else {
        panic!("three capacities: {capacities}");
    };
    let mut rows = vec![0; row_capacity * ROW_LEN];
    let (mut refs, mut list) = (vec![0; ref_capacity], vec![BEFORE; length]);
    let mut answer = [0; 16];
    let reply = read(dump, &mut rows, &mut refs, &mut list, &mut answer);
    let (used, rest) = list.split_at(answer[CLASSES] as usize);
    assert!(rest.iter().all(|entry| *entry == BEFORE), "{capacities}");
    let mut text = format!(
        "reply {reply} place {} rows {} refs {} entries {}\n",
        answer[PLACE], answer[ROWS], answer[REFS], answer[CLASSES]
    );
    for e in used {
        text += &format!(
            "entry {} {} {} {} {} {}\n",
            e.class, e.mark, e.instances, e.bytes, e.refs, e.waiting
        );
    }
    text
}

#[test]
fn class_summaries_of_the_samples() {
    let folder = Path::new(env!("CARGO_MANIFEST_DIR")).join("../samples/classes");
    let expected = std::fs::read_to_string(folder.join("expected")).unwrap();
    for read in [library::read as Read, plain::read as Read] {
        let (mut dump, mut readings, mut actual) = (Vec::new(), 0, String::new());
        for line in expected.lines() {
            if let Some(name) = line.strip_prefix("dump ") {
                dump = std::fs::read(folder.join(format!("{name}.phd"))).unwrap();
                actual += &format!("{line}\n");
            } else if line.starts_with("read ") {
                readings += 1;
                actual += &format!("{line}\n{}", lines(read, &dump, line));
            }
        }
        assert_eq!(actual, expected);
        assert!(readings >= READINGS, "{readings} readings");
    }
}
