//! Large buffers, with an error instead of an abort if there is not enough memory.

use crate::messages::grouped;
use std::hint::black_box;

/// An allocation that failed.
pub struct OutOfMemory {
    bytes: u128,
}

impl OutOfMemory {
    /// Returns the error for `count` elements of type `T`.
    pub fn of<T>(count: usize) -> OutOfMemory {
        OutOfMemory {
            bytes: count as u128 * size_of::<T>() as u128,
        }
    }

    /// Returns the message, with what the memory was for.
    pub fn message(&self, purpose: &str) -> String {
        let bytes = grouped(self.bytes);
        format!("not enough memory {purpose}: {bytes} bytes were asked for")
    }
}

/// Allocates `count` zeroes. The system provides the memory when it is first used, so unused capacity costs nothing.
pub fn zeroed<T: Clone + Default>(count: usize) -> Result<Vec<T>, OutOfMemory> {
    // `vec!` aborts if there is no memory, so the same size is first tried with a call that returns an error.
    let mut trial: Vec<T> = Vec::new();
    trial
        .try_reserve_exact(count)
        .map_err(|_| OutOfMemory::of::<T>(count))?;
    drop(black_box(trial));
    Ok(vec![T::default(); count])
}
