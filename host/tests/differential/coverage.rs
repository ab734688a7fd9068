//! Counts what the random cases covered: the cases of each kind, the replies of each operation, and the boundary values.

use phd_host::reply;
use std::collections::BTreeMap;

/// The replies of a read that random cases must give: all but `OVER_LIMIT`, which needs a dump of more than 1 GiB.
pub const READ_REPLIES: [u64; 14] = [
    reply::DONE,
    reply::CUT,
    reply::NO_DUMP,
    reply::BAD_VERSION,
    reply::BAD_FLAG,
    reply::BAD_TAG,
    reply::BAD_STRING,
    reply::OUT_OF_RANGE,
    reply::NULL_REF,
    reply::EMPTY_SLOT,
    reply::HASH_BITS,
    reply::BAD_COUNT,
    reply::NO_ROW,
    reply::NO_REFS,
];

/// What is counted, in the order in which it is printed.
const TOPICS: [&str; 20] = [
    "read",
    "read with a list",
    "entry",
    "full buffers",
    "write",
    "text",
    "write size",
    "text size",
    "gap",
    "reference",
    "length",
    "nulls",
    "search",
    "rows",
    "index",
    "missing",
    "longer cut",
    "form",
    "loose",
    "every run",
];

#[derive(Default)]
pub struct Coverage {
    kinds: BTreeMap<&'static str, u64>,
    counts: BTreeMap<(&'static str, i64), u64>,
}

impl Coverage {
    /// Counts a case of a kind.
    pub fn count_case(&mut self, kind: &'static str) {
        *self.kinds.entry(kind).or_default() += 1;
    }

    /// Counts a number of a topic, for example a boundary value.
    pub fn count(&mut self, topic: &'static str, number: i64) {
        *self.counts.entry((topic, number)).or_default() += 1;
    }

    /// Counts a reply of an operation.
    pub fn count_reply(&mut self, operation: &'static str, reply: u64) {
        self.count(operation, reply as i64);
    }

    /// Adds the counts of another thread.
    pub fn merge(&mut self, other: Coverage) {
        for (name, count) in other.kinds {
            *self.kinds.entry(name).or_default() += count;
        }
        for (key, count) in other.counts {
            *self.counts.entry(key).or_default() += count;
        }
    }

    /// Returns how many cases ran.
    pub fn cases(&self) -> u64 {
        self.kinds.values().sum()
    }

    /// Prints all counts.
    pub fn print(&self, title: &str) {
        println!("{title}: {} cases", self.cases());
        for (name, count) in &self.kinds {
            println!("  {name}: {count}");
        }
        for topic in TOPICS {
            let counts = self.counts.iter().filter(|((name, _), _)| *name == topic);
            let counts: Vec<_> = counts
                .map(|((_, number), n)| format!("{number}: {n}"))
                .collect();
            if !counts.is_empty() {
                println!("  {topic} {}", counts.join(", "));
            }
        }
    }

    /// Returns the numbers of a topic that were counted fewer than `least` times.
    pub fn rare(&self, topic: &'static str, numbers: &[i64], least: u64) -> Vec<i64> {
        let count = |number: i64| self.counts.get(&(topic, number)).copied().unwrap_or(0);
        let rare = numbers.iter().copied();
        rare.filter(|number| count(*number) < least).collect()
    }

    /// Returns the replies of an operation that were counted fewer than `least` times.
    pub fn rare_replies(&self, operation: &'static str, replies: &[u64], least: u64) -> Vec<i64> {
        let replies: Vec<i64> = replies.iter().map(|reply| *reply as i64).collect();
        self.rare(operation, &replies, least)
    }
}
