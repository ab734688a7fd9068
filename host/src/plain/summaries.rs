//! Class summaries: counts the records of each class word and each primitive type, and writes the list at the end.

use super::read::Record;
use super::{Reply, CLASS, OBJECT, OBJECT_ARRAY};
use crate::summary::Summary;
use crate::word_map::WordMap;
use std::collections::hash_map::Entry;

/// The marks of entries.
const CLASS_WORD: u64 = 0;
const PRIMITIVE_TYPE: u64 = 1;

/// What is counted for an entry.
#[derive(Default)]
struct Tally {
    /// The index of the entry in the list.
    index: usize,
    objects: u64,
    arrays: u64,
    array_bytes: u64,
    refs: u64,
}

/// The caller's list, and what is counted for it.
pub(super) struct Summaries<'t> {
    list: &'t mut [Summary],
    /// How many entries are in use.
    count: usize,
    words: WordMap<Tally>,
    types: [Option<Tally>; 8],
    /// The instance size of the first class row at each address.
    sizes: WordMap<u64>,
}

impl<'t> Summaries<'t> {
    /// Returns the summaries before the first record.
    pub fn new(list: &'t mut [Summary]) -> Summaries<'t> {
        Summaries {
            list,
            count: 0,
            words: WordMap::default(),
            types: Default::default(),
            sizes: WordMap::default(),
        }
    }

    /// Counts a record, or nothing of it if it needs an entry and the list has none left.
    pub fn add(&mut self, record: &Record) -> Result<(), Reply> {
        if record.kind == CLASS {
            let address = record.address as u64 * 4;
            self.sizes.entry(address).or_insert(record.size);
            return Ok(());
        }
        let tally = self.tally(record)?;
        tally.refs += record.ref_count as u64;
        if record.kind == OBJECT {
            tally.objects += 1;
        } else {
            tally.arrays += 1;
            tally.array_bytes += 4 * record.size;
        }
        Ok(())
    }

    /// Returns what is counted for the entry of a record that is no class. Adds the entry if this is its first record.
    fn tally(&mut self, record: &Record) -> Result<&mut Tally, Reply> {
        let (count, capacity) = (&mut self.count, self.list.len());
        let mut add = || {
            if *count == capacity {
                return Err(Reply::NoEntry);
            }
            *count += 1;
            Ok(Tally {
                index: *count - 1,
                ..Tally::default()
            })
        };
        if matches!(record.kind, OBJECT | OBJECT_ARRAY) {
            return match self.words.entry(record.class) {
                Entry::Occupied(known) => Ok(known.into_mut()),
                Entry::Vacant(new) => Ok(new.insert(add()?)),
            };
        }
        match &mut self.types[record.primitive as usize] {
            Some(known) => Ok(known),
            new => Ok(new.insert(add()?)),
        }
    }

    /// Writes the list, now that every class row that was stored is known. Returns how many entries are in use.
    pub fn finish(self) -> usize {
        for (word, tally) in self.words {
            let size = self.sizes.get(&word);
            self.list[tally.index] = Summary {
                class: word,
                mark: CLASS_WORD,
                instances: tally.objects + tally.arrays,
                bytes: tally.array_bytes + tally.objects * size.unwrap_or(&0),
                refs: tally.refs,
                waiting: if size.is_none() { tally.objects } else { 0 },
            };
        }
        for (primitive, tally) in self.types.into_iter().enumerate() {
            if let Some(tally) = tally {
                self.list[tally.index] = Summary {
                    class: primitive as u64,
                    mark: PRIMITIVE_TYPE,
                    instances: tally.arrays,
                    bytes: tally.array_bytes,
                    refs: tally.refs,
                    waiting: 0,
                };
            }
        }
        self.count
    }
}
