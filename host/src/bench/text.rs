//! Measures the text of a heap and its size query.

use crate::clock::keep_least;
use crate::heap::Heap;
use phd_host::answer::PLACE;
use phd_host::{library, reply};
use std::time::Duration;

/// The least times of a text and of its size query.
pub struct TextTimes {
    pub text: Duration,
    pub size: Duration,
}

impl TextTimes {
    /// Times that any measured one replaces.
    pub const NONE: TextTimes = TextTimes {
        text: Duration::MAX,
        size: Duration::MAX,
    };

    /// Measures the text of a heap and its size query once, and keeps the lesser times.
    pub fn measure(&mut self, heap: &Heap) {
        let mut answer = [0; 16];
        keep_least(&mut self.size, || {
            library::text_size(&heap.tables(), &mut answer);
        });
        let size = answer[PLACE];
        let mut out = vec![1; size as usize];
        keep_least(&mut self.text, || {
            library::text(&heap.tables(), &mut out, &mut answer);
        });
        assert_eq!(answer[..=PLACE], [reply::DONE, size], "the text is written");
    }
}
