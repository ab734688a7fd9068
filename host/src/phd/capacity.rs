//! How large the buffers are that a dump is read into: a guess from its size first, and more if that is too little.

use crate::input::LIMIT;
use phd_host::answer::{self, Answer};
use phd_host::{library, reply};

/// The most entries of the first list. Few heaps have a tenth as many classes.
const MOST_CLASSES: usize = 1 << 18;

/// The capacity of the buffers, in rows, in references and in class summaries.
#[derive(Clone, Copy)]
pub struct Capacity {
    pub rows: usize,
    pub refs: usize,
    pub classes: usize,
}

impl Capacity {
    /// Returns the most that a dump of this size can need. Buffers of this capacity are never too small.
    fn max(size: usize) -> Capacity {
        Capacity {
            rows: library::max_rows(size),
            refs: library::max_refs(size),
            // Each class summary has at least one row.
            classes: library::max_rows(size),
        }
    }

    /// Returns the smaller capacity of both, for each buffer.
    fn at_most(self, limit: Capacity) -> Capacity {
        Capacity {
            rows: self.rows.min(limit.rows),
            refs: self.refs.min(limit.refs),
            classes: self.classes.min(limit.classes),
        }
    }

    /// Returns the capacity for the first attempt. A dump over the limit needs none, since it is refused at once.
    pub fn guess(size: usize) -> Capacity {
        if size as u64 > LIMIT {
            return Capacity {
                rows: 0,
                refs: 0,
                classes: 0,
            };
        }
        let guess = Capacity {
            rows: size / 16 + 64,
            refs: size / 8 + 64,
            // A class and one object of it usually take more than 64 bytes.
            classes: (size / 64 + 64).min(MOST_CLASSES),
        };
        guess.at_most(Capacity::max(size))
    }

    /// Returns the capacity for the next attempt: what the whole dump needs if it is like the part that was read, plus an
    /// eighth. The buffer that was too small always grows; that of references at least doubles, since one record may need many.
    pub fn grown(self, size: usize, answer: &Answer) -> Capacity {
        let estimate = |used: u64| {
            let all = u128::from(used) * size as u128 / u128::from(answer[answer::PLACE].max(1));
            usize::try_from(all + all / 8).unwrap_or(usize::MAX)
        };
        let mut grown = Capacity {
            rows: self.rows.max(estimate(answer[answer::ROWS])),
            refs: self.refs.max(estimate(answer[answer::REFS])),
            classes: self.classes,
        };
        match answer[answer::REPLY] {
            reply::NO_ROW => grown.rows = grown.rows.max(self.rows + self.rows / 4 + 1),
            reply::NO_REFS => grown.refs = grown.refs.max(self.refs * 2 + 1),
            _ => grown.classes = self.classes * 4 + 1,
        }
        grown.at_most(Capacity::max(size))
    }
}
