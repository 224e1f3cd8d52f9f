//! The filter as its papers have it, with random displacement: where no candidate of a tag has an
//! empty cell, an entry that chance picks is thrown out, goes to another of its candidates, throws
//! out one that stands there, and so on, up to a number of kicks.
//!
//! Cells, fingerprints and candidates are those of the table, so that two lists differ only by how
//! room was made. It is here to be measured against.

use crate::index::{Answer, Settings};
use crate::requests::Mix;
use crate::table::{check_table, first_with, start, CELLS};
use std::mem::swap;

/// How many entries may be thrown out for one tag.
pub const MOST_KICKS: u32 = 500;

/// Puts an entry for the tag in, and answers how many kicks that took.
///
/// After the last kick the answer is 9, as for a table that is full, but the tag is in: the entry
/// that was thrown out last is not, and nothing tells whose it was.
pub fn hold(settings: Settings, table: &mut [u16], chance: &mut Mix, tag: &[u8]) -> Answer<u32> {
    check_table(settings, table)?;
    let (mut value, home) = settings.entry_unchecked(tag)?;
    let candidates = settings.candidates_unchecked(value, home);
    let candidates = candidates.as_slice();
    if let Some(cell) = first_with(table, candidates, 0) {
        table[cell] = value;
        return Ok(0);
    }
    let mut bucket = picked(candidates, chance.draw());
    for kicks in 1..=MOST_KICKS {
        let draw = chance.draw();
        swap(
            &mut table[start(bucket) + draw as usize % CELLS],
            &mut value,
        );
        // The first candidate is the bucket that it was thrown out of.
        let candidates = settings.candidates_unchecked(value, bucket);
        let others = &candidates.as_slice()[1..];
        if let Some(cell) = first_with(table, others, 0) {
            table[cell] = value;
            return Ok(kicks);
        }
        bucket = picked(others, draw);
    }
    Err(9)
}

/// Whether a candidate has the tag's fingerprint. It ends at the first copy.
pub fn lookup(settings: Settings, table: &[u16], tag: &[u8]) -> Answer<bool> {
    check_table(settings, table)?;
    let (fingerprint, home) = settings.entry_unchecked(tag)?;
    let candidates = settings.candidates_unchecked(fingerprint, home);
    Ok(first_with(table, candidates.as_slice(), fingerprint).is_some())
}

/// One of the buckets. It goes by the upper half of what was drawn, as a cell goes by the lower.
fn picked(buckets: &[u32], draw: u64) -> u32 {
    buckets[(draw >> 32) as usize % buckets.len()]
}
