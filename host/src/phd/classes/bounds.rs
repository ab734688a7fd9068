//! Bounds for bytes that are unknown because a class row was not read. All objects of a class have the same size, and none extends
//! past the next address. So they take at most their number times the smallest gap from one of them to the next address of any
//! record.

use super::lines::Line;
use crate::dump::Dump;
use crate::memory::OutOfMemory;
use phd_host::row::{kind, ADDRESS, CLASS, KIND, ROW_LEN};
use phd_host::word_map::WordMap;

/// The address of a record, and of an object whose bytes are unknown the index of its line.
type Place = (u64, Option<u32>);

/// Sets the bounds of all lines whose bytes are unknown. One stays without a bound if none of its objects has a next address.
pub fn set(lines: &mut [Line], dump: &Dump) -> Result<(), OutOfMemory> {
    let mut unknown = WordMap::default();
    for (index, line) in lines.iter().enumerate() {
        if let (None, Some(class)) = (line.bytes, line.class) {
            unknown.insert(class, index as u32);
        }
    }
    if unknown.is_empty() {
        return Ok(());
    }
    let rows = dump.rows().chunks_exact(ROW_LEN);
    let places = rows.map(|row| place(row, &unknown));
    let gaps = match smallest_gaps(lines.len(), places.clone().rev()) {
        Some(gaps) => gaps,
        None => {
            let sorted = sorted(places)?;
            smallest_gaps(lines.len(), sorted.into_iter().rev()).unwrap_or_default()
        }
    };
    for (line, gap) in lines.iter_mut().zip(gaps) {
        if line.bytes.is_none() && gap != u64::MAX {
            line.at_most = Some(line.instances.saturating_mul(gap));
        }
    }
    Ok(())
}

/// Returns the place of a row, given the lines of the class words whose objects have unknown bytes.
fn place(row: &[u64], unknown: &WordMap<u32>) -> Place {
    let line = match row[KIND] {
        kind::OBJECT => unknown.get(&row[CLASS]).copied(),
        _ => None,
    };
    (row[ADDRESS], line)
}

/// Returns the places in the order of addresses. Most dumps have long runs in that order, which this sort makes use of.
fn sorted(places: impl ExactSizeIterator<Item = Place>) -> Result<Vec<Place>, OutOfMemory> {
    let mut sorted = Vec::new();
    sorted
        .try_reserve_exact(places.len())
        .map_err(|_| OutOfMemory::of::<Place>(places.len()))?;
    sorted.extend(places);
    sorted.sort_by_key(|place| place.0);
    Ok(sorted)
}

/// Returns for each line the smallest gap from one of its objects to the next higher address, or the largest number if there is
/// none. The places must come in the order of addresses, the highest first; if they do not, nothing is returned.
fn smallest_gaps(lines: usize, places: impl Iterator<Item = Place>) -> Option<Vec<u64>> {
    let mut gaps = vec![u64::MAX; lines];
    // No record has the largest number as its address, since addresses are multiples of four.
    let (mut here, mut next) = (u64::MAX, None);
    for (address, line) in places {
        if address > here {
            return None;
        }
        if address < here {
            (here, next) = (address, (here != u64::MAX).then_some(here));
        }
        if let (Some(line), Some(next)) = (line, next) {
            let gap = &mut gaps[line as usize];
            *gap = (*gap).min(next - address);
        }
    }
    Some(gaps)
}
