//! The hold file, several buckets at a time.

use super::survey;
use crate::branch_free::{get_last, put_last, AHEAD, CELLS, FINGERPRINTS, LENGTHS, LONGEST, MOVES};
use crate::holdfile::{self, check_buckets, check_table, take_head, Head};
use crate::index::{Answer, Settings};
use std::arch::x86_64::{
    __m128i, _mm_add_epi16, _mm_and_si128, _mm_cmpeq_epi16, _mm_cvtsi128_si64, _mm_loadl_epi64,
    _mm_loadu_si128, _mm_movemask_epi8, _mm_or_si128, _mm_packs_epi16, _mm_set1_epi16,
    _mm_set_epi64x, _mm_setzero_si128, _mm_slli_epi32, _mm_srai_epi32, _mm_srli_epi32,
    _mm_subs_epu16, _mm_unpackhi_epi64,
};

/// The filled cells of eight buckets, a bit for each.
#[inline(always)]
unsafe fn marks(cells: &[__m128i; 4]) -> usize {
    let [a, b, c, d] = cells.map(|cells| _mm_cmpeq_epi16(cells, _mm_setzero_si128()));
    let low = _mm_movemask_epi8(_mm_packs_epi16(a, b));
    let high = _mm_movemask_epi8(_mm_packs_epi16(c, d));
    !(low | high << 16) as usize
}

/// The first of each two cells gets the second's value where it is empty.
#[inline(always)]
unsafe fn closed_up(cells: __m128i) -> __m128i {
    let empty = _mm_cmpeq_epi16(cells, _mm_setzero_si128());
    let first = _mm_srai_epi32(_mm_slli_epi32(empty, 16), 16);
    _mm_or_si128(cells, _mm_and_si128(first, _mm_srli_epi32(cells, 16)))
}

/// Writes buckets, eight at a time, and answers how many bytes they have. Up to nine bytes from the
/// start of each are written, all of which have to be there; what is written beyond its
/// fingerprints, the next one writes over.
unsafe fn put(table: &[u16], out: &mut [u8]) -> usize {
    let out = out.as_mut_ptr();
    let mut to = out;
    for block in table.chunks_exact(8 * CELLS) {
        let from: *const __m128i = block.as_ptr().cast();
        let cells = [0, 1, 2, 3].map(|i| _mm_loadu_si128(from.add(i)));
        let mut marks = marks(&cells);
        for two in cells.map(|cells| closed_up(cells)) {
            let low = _mm_cvtsi128_si64(two);
            let high = _mm_cvtsi128_si64(_mm_unpackhi_epi64(two, two));
            for bucket in [low as u64, high as u64] {
                let map = marks % 16;
                to.cast::<u64>().write_unaligned(bucket << 8 | map as u64);
                let place = to.add(usize::from(AHEAD[map]));
                place.cast::<u32>().write_unaligned((bucket >> 32) as u32);
                to = to.add(usize::from(LENGTHS[map]));
                marks >>= 4;
            }
        }
    }
    to.offset_from(out) as usize
}

/// Writes the file, and answers how many bytes it has. No branch is decided by a cell but in the
/// last few buckets.
pub fn write(s: &Settings, table: &[u16], out: &mut [u8]) -> Answer<usize> {
    let s = *s;
    check_table(s, table)?;
    let (any, filled) = survey(table);
    if u32::from(any) >> s.width != 0 {
        return Err(17);
    }
    let head = Head::of(s);
    let head = head.as_slice();
    let buckets = s.buckets as usize;
    let length = head.len() + buckets + 2 * filled;
    let out = out.get_mut(..length).ok_or(16u32)?;
    let (place, out) = out.split_at_mut(head.len());
    place.copy_from_slice(head);
    // A bucket that eight or more come after has nine bytes to write to: there is a byte of each.
    let blocks = buckets.saturating_sub(LONGEST - 1) / 8;
    let (first, last) = table.split_at(8 * CELLS * blocks);
    let at = unsafe { put(first, out) };
    put_last(last, &mut out[at..]);
    Ok(length)
}

/// Parts of the file that are read side by side.
const PARTS: usize = 4;
/// How many steps a walk takes before a part starts.
const STEPS: usize = 128;

/// Whether anything was wrong with the buckets so far.
struct Faults {
    maps: u8,
    fingerprints: __m128i,
    /// The greatest fingerprint less 1.
    greatest: __m128i,
}

impl Faults {
    #[inline(always)]
    unsafe fn none(width: u32) -> Self {
        Faults {
            maps: 0,
            fingerprints: _mm_setzero_si128(),
            greatest: _mm_set1_epi16(((1u32 << width) - 2) as i16),
        }
    }

    /// Adds those of a bucket, and answers its length as far as the low bits of its first byte tell
    /// it. Nine bytes have to be there.
    #[inline(always)]
    unsafe fn add(&mut self, bucket: *const u8) -> usize {
        let map = usize::from(*bucket % 16);
        self.maps |= *bucket;
        let words = _mm_loadl_epi64(bucket.add(1).cast());
        // With 1 taken away, 0 is the greatest number of all.
        let less = _mm_add_epi16(words, _mm_set1_epi16(-1));
        let beyond = _mm_subs_epu16(less, self.greatest);
        let counted = _mm_set_epi64x(0, FINGERPRINTS[map] as i64);
        self.fingerprints = _mm_or_si128(self.fingerprints, _mm_and_si128(beyond, counted));
        usize::from(LENGTHS[map])
    }

    unsafe fn any(&self) -> bool {
        self.maps > 15 || _mm_cvtsi128_si64(self.fingerprints) != 0
    }
}

/// Where each part starts, how many buckets it has, and where the last one ends.
struct Parts {
    starts: [usize; PARTS],
    counts: [usize; PARTS],
    end: usize,
}

/// Checks all buckets that have nine bytes from their start on. None if something is wrong, or if
/// the parts do not meet.
///
/// A bucket has to be looked at to know where the next one starts, so that each load waits for the
/// one before. Hence the parts: a walk that starts at any byte, as if a bucket started there, soon
/// comes upon the start of a bucket and goes on from bucket to bucket. Where it has come to after
/// some steps, a part starts. That is right if the part before, bucket by bucket, ends there.
fn check(width: u32, bytes: &[u8]) -> Option<Parts> {
    const LAST: usize = PARTS - 1;
    let from = bytes.as_ptr();
    let part = bytes.len() / PARTS;
    if part < LONGEST * (STEPS + 1) {
        return None;
    }
    let mut starts = [0; PARTS];
    for (i, start) in starts.iter_mut().enumerate() {
        *start = part * i;
    }
    // A step is of nine bytes or fewer, so that the walk ahead of a part leaves nine bytes of its
    // share. And a bucket is looked at where nine bytes are left to the end of the bytes.
    unsafe {
        for _ in 0..STEPS {
            for at in &mut starts[1..] {
                *at += usize::from(LENGTHS[usize::from(*from.add(*at) % 16)]);
            }
        }
        let mut ends = [bytes.len(); PARTS];
        ends[..LAST].copy_from_slice(&starts[1..]);
        let (mut at, mut counts) = (starts, [0; PARTS]);
        let mut faults = Faults::none(width);
        loop {
            let room = |i: usize| (ends[i] - at[i]) / LONGEST;
            let steps = (1..PARTS).fold(room(0), |least, i| least.min(room(i)));
            if steps == 0 {
                break;
            }
            for _ in 0..steps {
                for at in &mut at {
                    *at += faults.add(from.add(*at));
                }
            }
            counts = counts.map(|count| count + steps);
        }
        // What is left of each part; in the last one, buckets without nine bytes stay.
        ends[LAST] -= LONGEST - 1;
        for i in 0..PARTS {
            while at[i] < ends[i] {
                at[i] += faults.add(from.add(at[i]));
                counts[i] += 1;
            }
        }
        let good = at[..LAST] == ends[..LAST] && !faults.any();
        good.then(|| Parts {
            starts,
            counts,
            end: at[LAST],
        })
    }
}

/// Fills a bucket's cells, and answers its length. Nine bytes have to be there.
#[inline(always)]
unsafe fn get(bucket: *const u8, cells: *mut u16) -> usize {
    let map = usize::from(*bucket % 16);
    let [stay, by_two, still, by_one] = MOVES[map];
    let words = bucket.add(1).cast::<u64>().read_unaligned();
    let words = words & stay | words << 32 & by_two;
    let words = words & still | words << 16 & by_one;
    cells.cast::<u64>().write_unaligned(words);
    usize::from(LENGTHS[map])
}

/// Fills the cells of the parts.
unsafe fn get_parts(bytes: &[u8], parts: &Parts, table: &mut [u16]) {
    let from = bytes.as_ptr();
    let mut at = parts.starts;
    let mut cells = [table.as_mut_ptr(); PARTS];
    for i in 1..PARTS {
        cells[i] = cells[i - 1].add(CELLS * parts.counts[i - 1]);
    }
    let together = parts
        .counts
        .iter()
        .fold(usize::MAX, |n, &count| n.min(count));
    for _ in 0..together {
        for i in 0..PARTS {
            at[i] += get(from.add(at[i]), cells[i]);
            cells[i] = cells[i].add(CELLS);
        }
    }
    for i in 0..PARTS {
        for _ in together..parts.counts[i] {
            at[i] += get(from.add(at[i]), cells[i]);
            cells[i] = cells[i].add(CELLS);
        }
    }
}

/// Reads the file into the table, and answers the settings. A short file is left to the plain
/// reader, and so is what the fast check does not find good.
pub fn read(bytes: &[u8], table: &mut [u16]) -> Answer<Settings> {
    let mut rest = bytes;
    let settings = take_head(&mut rest)?;
    check_table(settings, table)?;
    let parts = match check(settings.width, rest) {
        Some(parts) => parts,
        None => return holdfile::read(bytes, table),
    };
    let count = parts.counts.iter().sum::<usize>();
    let last = match (settings.buckets as usize).checked_sub(count) {
        Some(left) => Settings {
            buckets: left as u32,
            ..settings
        },
        None => return holdfile::read(bytes, table),
    };
    check_buckets(last, &rest[parts.end..])?;
    let (first, table) = table.split_at_mut(CELLS * count);
    // Nine bytes of each of these buckets were looked at, and so many buckets have cells here.
    unsafe { get_parts(rest, &parts, first) };
    get_last(&rest[parts.end..], table);
    Ok(settings)
}
