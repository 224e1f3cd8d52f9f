//! The table: clear, lookup, release, hold and its forecast, and the bucket view, on cells and
//! scratch that the caller lends.

use crate::index::{Answer, Settings};
use std::iter;

/// Cells in a bucket.
pub(crate) const CELLS: usize = 4;

#[inline]
pub(crate) fn check_table(settings: Settings, table: &[u16]) -> Answer<()> {
    settings.check()?;
    if table.len() != CELLS * settings.buckets as usize {
        return Err(5);
    }
    Ok(())
}

/// Where the cells of a bucket start.
pub(crate) fn start(bucket: u32) -> usize {
    CELLS * bucket as usize
}

/// The lowest cell of a bucket that has the value, as its number in the table.
fn lowest(table: &[u16], bucket: u32, value: u16) -> Option<usize> {
    let from = start(bucket);
    let cells = &table[from..from + CELLS];
    Some(from + cells.iter().position(|&cell| cell == value)?)
}

/// The lowest cell with the value in the first of the buckets that has one.
pub(crate) fn first_with(table: &[u16], buckets: &[u32], value: u16) -> Option<usize> {
    buckets.iter().find_map(|&b| lowest(table, b, value))
}

/// Empties every cell.
pub fn clear(settings: Settings, table: &mut [u16]) -> Answer<()> {
    check_table(settings, table)?;
    table.fill(0);
    Ok(())
}

/// How many cells of a bucket have the value.
fn cells_with(table: &[u16], bucket: u32, value: u16) -> usize {
    let from = start(bucket);
    let cells = &table[from..from + CELLS];
    cells.iter().filter(|&&cell| cell == value).count()
}

/// How many copies of the tag's fingerprint its candidates hold. A bucket that is listed twice is
/// one bucket.
pub fn lookup(settings: Settings, table: &[u16], tag: &[u8]) -> Answer<u32> {
    check_table(settings, table)?;
    lookup_unchecked(settings, table, tag)
}

/// The lookup, where settings and table are known to be good.
#[inline]
pub(crate) fn lookup_unchecked(settings: Settings, table: &[u16], tag: &[u8]) -> Answer<u32> {
    let (fingerprint, home) = settings.entry_unchecked(tag)?;
    let candidates = settings.candidates_unchecked(fingerprint, home);
    let list = candidates.as_slice();
    let first_time = |&i: &usize| !list[..i].contains(&list[i]);
    let copies = (0..list.len())
        .filter(first_time)
        .map(|i| cells_with(table, list[i], fingerprint));
    Ok(copies.sum::<usize>() as u32)
}

/// Takes one entry of the tag out. False if there is none.
pub fn release(settings: Settings, table: &mut [u16], tag: &[u8]) -> Answer<bool> {
    check_table(settings, table)?;
    release_unchecked(settings, table, tag)
}

/// The release, where settings and table are known to be good.
#[inline]
pub(crate) fn release_unchecked(settings: Settings, table: &mut [u16], tag: &[u8]) -> Answer<bool> {
    let (fingerprint, home) = settings.entry_unchecked(tag)?;
    let candidates = settings.candidates_unchecked(fingerprint, home);
    let found = first_with(table, candidates.as_slice(), fingerprint);
    if let Some(cell) = found {
        table[cell] = 0;
    }
    Ok(found.is_some())
}

/// Puts an entry for the tag in, and answers how many others moved to make room.
pub fn hold(settings: Settings, table: &mut [u16], scratch: &mut [u32], tag: &[u8]) -> Answer<u32> {
    check_table(settings, table)?;
    hold_unchecked(settings, table, scratch, tag)
}

/// The hold, where settings and table are known to be good.
#[inline]
pub(crate) fn hold_unchecked(
    settings: Settings,
    table: &mut [u16],
    scratch: &mut [u32],
    tag: &[u8],
) -> Answer<u32> {
    let buckets = settings.buckets as usize;
    if scratch.len() < 2 * buckets {
        return Err(6);
    }
    let (fingerprint, home) = settings.entry_unchecked(tag)?;
    let candidates = settings.candidates_unchecked(fingerprint, home);
    let candidates = candidates.as_slice();
    if let Some(cell) = first_with(table, candidates, 0) {
        table[cell] = fingerprint;
        return Ok(0);
    }
    let mut visited = Visited::none(scratch, buckets);
    let (end, last) = search(settings, table, &mut visited, candidates).ok_or(9u32)?;
    Ok(relocate(table, &visited, end, last, fingerprint))
}

/// What a hold of the tag would answer now: the same search, with no entry shifted or put in.
pub fn forecast(settings: Settings, table: &[u16], scratch: &mut [u32], tag: &[u8]) -> Answer<u32> {
    check_table(settings, table)?;
    let buckets = settings.buckets as usize;
    if scratch.len() < 2 * buckets {
        return Err(6);
    }
    let (fingerprint, home) = settings.entry_unchecked(tag)?;
    let candidates = settings.candidates_unchecked(fingerprint, home);
    let candidates = candidates.as_slice();
    if first_with(table, candidates, 0).is_some() {
        return Ok(0);
    }
    let mut visited = Visited::none(scratch, buckets);
    let (_, last) = search(settings, table, &mut visited, candidates).ok_or(9u32)?;
    Ok(visited.path(last).count() as u32)
}

/// How a bucket was reached: through this cell of the table, or as a candidate of the tag.
type Source = Option<usize>;

/// The buckets that a search has marked, in the order in which they were queued.
///
/// Word k of the queue is the k-th bucket, with the bucket that it was reached from above. Word b
/// of the places tells where bucket b stands in the queue, with the cell that it was reached
/// through above. A place counts only if the queue is that long and has b there, so that nothing
/// need be cleared: whatever the words held before, a bucket that is not in the queue is unmarked.
struct Visited<'a> {
    queue: &'a mut [u32],
    places: &'a mut [u32],
    count: usize,
}

impl<'a> Visited<'a> {
    const LOW: u32 = 0xffff;
    /// Stands for a cell where a bucket is a candidate of the tag.
    const ROOT: u32 = CELLS as u32;

    /// No bucket yet, in scratch that is long enough for all of them.
    fn none(scratch: &'a mut [u32], buckets: usize) -> Self {
        let (queue, places) = scratch[..2 * buckets].split_at_mut(buckets);
        Visited {
            queue,
            places,
            count: 0,
        }
    }

    fn marked(&self, bucket: u32) -> bool {
        let place = (self.places[bucket as usize] & Self::LOW) as usize;
        place < self.count && self.queue[place] & Self::LOW == bucket
    }

    /// Marks and queues a bucket.
    fn push(&mut self, bucket: u32, source: Source) {
        let (parent, cell) = match source {
            Some(cell) => ((cell / CELLS) as u32, (cell % CELLS) as u32),
            None => (0, Self::ROOT),
        };
        self.queue[self.count] = parent << 16 | bucket;
        self.places[bucket as usize] = cell << 16 | self.count as u32;
        self.count += 1;
    }

    fn bucket(&self, place: usize) -> u32 {
        self.queue[place] & Self::LOW
    }

    /// How a marked bucket was reached.
    fn came_from(&self, bucket: u32) -> Source {
        let word = self.places[bucket as usize];
        let cell = word >> 16;
        if cell == Self::ROOT {
            return None;
        }
        let parent = self.queue[(word & Self::LOW) as usize] >> 16;
        Some(start(parent) + cell as usize)
    }

    /// The cells of a path, from the last one back to that of a candidate.
    fn path(&self, last: usize) -> impl Iterator<Item = usize> + '_ {
        iter::successors(Some(last), |&cell| self.came_from((cell / CELLS) as u32))
    }
}

/// The breadth-first search from full candidates: the empty cell where it ends, and the cell
/// through which that cell's bucket was reached. None if the queue runs out.
fn search(
    settings: Settings,
    table: &[u16],
    visited: &mut Visited,
    candidates: &[u32],
) -> Option<(usize, usize)> {
    for &bucket in candidates {
        if !visited.marked(bucket) {
            visited.push(bucket, None);
        }
    }
    let mut taken = 0;
    while taken < visited.count {
        let bucket = visited.bucket(taken);
        taken += 1;
        for cell in start(bucket)..start(bucket) + CELLS {
            // The first candidate is the bucket itself.
            let candidates = settings.candidates_unchecked(table[cell], bucket);
            for &next in &candidates.as_slice()[1..] {
                if visited.marked(next) {
                    continue;
                }
                if let Some(end) = lowest(table, next, 0) {
                    return Some((end, cell));
                }
                visited.push(next, Some(cell));
            }
        }
    }
    None
}

/// Shifts the entries along the path, from its far end back to the candidate, and puts the
/// fingerprint into the cell that comes free there. The answer is how many were shifted.
fn relocate(
    table: &mut [u16],
    visited: &Visited,
    end: usize,
    last: usize,
    fingerprint: u16,
) -> u32 {
    let mut space = end;
    let mut moves = 0;
    for cell in visited.path(last) {
        table[space] = table[cell];
        space = cell;
        moves += 1;
    }
    table[space] = fingerprint;
    moves
}

fn check_view(settings: Settings, table: &[u16], bucket: u32) -> Answer<()> {
    check_table(settings, table)?;
    if bucket >= settings.buckets {
        return Err(8);
    }
    Ok(())
}

/// The four cells of a bucket, or none if refused.
pub fn view(settings: Settings, table: &[u16], bucket: u32) -> &[u16] {
    match check_view(settings, table, bucket) {
        Ok(()) => &table[start(bucket)..start(bucket) + CELLS],
        Err(_) => &[],
    }
}

/// The number that the view of the same inputs is refused with, or 0.
pub fn view_check(settings: Settings, table: &[u16], bucket: u32) -> u32 {
    check_view(settings, table, bucket).err().unwrap_or(0)
}
