//! The 16 numbers of an answer, with this implementation's own names for their places.

use super::read::Outcome;
use super::{Reply, Stop};

pub(super) type Answer = [u64; 16];

pub(super) const REPLY: usize = 0;
pub(super) const PLACE: usize = 1;
pub(super) const ROWS: usize = 2;
const REFS: usize = 3;
const BITS: usize = 4;
const ALL_HASHED: usize = 5;
const OPENJ9: usize = 6;
const VM_PRESENT: usize = 7;
const VM_PLACE: usize = 8;
const VM_LENGTH: usize = 9;
pub(super) const MISSING: usize = 10;
pub(super) const CLASSES: usize = 11;

/// Returns the answer of a read.
pub(super) fn of_read(outcome: Outcome) -> Answer {
    let mut answer = [0; 16];
    answer[REPLY] = outcome.reply as u64;
    answer[PLACE] = outcome.place as u64;
    answer[ROWS] = outcome.counts.rows as u64;
    answer[REFS] = outcome.counts.refs as u64;
    answer[MISSING] = outcome.missing as u64;
    answer[CLASSES] = outcome.counts.classes as u64;
    if let Some(header) = outcome.header {
        answer[BITS] = header.bits;
        answer[ALL_HASHED] = header.all_hashed.into();
        answer[OPENJ9] = header.openj9.into();
        if let Some(vm) = header.vm {
            answer[VM_PRESENT] = 1;
            answer[VM_PLACE] = vm.start as u64;
            answer[VM_LENGTH] = vm.len() as u64;
        }
    }
    answer
}

/// Returns the answer of a write, a text or a size query: a size, or a refusal.
pub(super) fn of_size(size: Result<usize, Stop>) -> Answer {
    let (reply, place) = match size {
        Ok(size) => (Reply::Done, size as u64),
        Err(stop) => stop,
    };
    let mut answer = [0; 16];
    answer[REPLY] = reply as u64;
    answer[PLACE] = place;
    answer
}
