//! Calls the library on a thread with a stack of its own, so that the limit of the main thread's stack does not matter.

use std::thread;

/// The stack in bytes. A text and a read with class summaries each take up to 600 KB of it, for an index of classes.
const STACK: usize = 4 << 20;

/// Does the work on a thread, and returns its result, or a message if there is no memory for the stack.
pub fn run<T: Send>(work: impl FnOnce() -> T + Send) -> Result<T, String> {
    thread::scope(|scope| {
        let started = thread::Builder::new()
            .stack_size(STACK)
            .spawn_scoped(scope, work);
        let not_started =
            |error| format!("a thread with a stack of 4 MB cannot be started: {error}");
        let ended = started.map_err(not_started)?.join();
        Ok(ended.unwrap_or_else(|panic| std::panic::resume_unwind(panic)))
    })
}
