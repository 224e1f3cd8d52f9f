//! Calls written for speed alone, which the benchmark measures the engine against. The tests hold
//! each of them to its plain form.

pub mod holdfile;
pub mod packed;

use crate::index::{fnv1a, Answer, Settings, MASKED, RING};
use crate::table;
use std::arch::x86_64::{
    __m128i, _mm_add_epi16, _mm_and_si128, _mm_cmpeq_epi16, _mm_cvtsi128_si64, _mm_loadl_epi64,
    _mm_loadu_si128, _mm_or_si128, _mm_set1_epi16, _mm_setzero_si128, _mm_storeu_si128,
    _mm_sub_epi16,
};

/// Where the ring leads from a bucket of its first block, in which every home bucket is.
#[inline(always)]
fn across(half: u32, offset: u32, bucket: u32) -> u32 {
    let ahead = bucket + offset;
    ahead + half * u32::from(ahead < half)
}

/// Minus one in each lane whose cell of the bucket equals that of `wanted`; in no lane unless the
/// bucket counts. The four cells are fetched as one word of 64 bits and compared side by side.
#[inline(always)]
fn equal(table: &[u16], bucket: u32, wanted: __m128i, counts: bool) -> __m128i {
    let from = 4 * bucket as usize;
    let cells = &table[from..from + 4];
    // SSE2 is part of every x86-64, and the four cells are the eight bytes that are read.
    unsafe {
        let cells = _mm_loadl_epi64(cells.as_ptr().cast());
        let kept = _mm_set1_epi16(-i16::from(counts));
        _mm_and_si128(_mm_cmpeq_epi16(cells, wanted), kept)
    }
}

/// How many copies of the tag's fingerprint its candidates hold. No branch is decided by a cell, a
/// fingerprint or a bucket: a candidate that coincides with an earlier one is read too, and counts
/// nothing.
pub fn lookup(s: &Settings, table: &[u16], tag: &[u8]) -> Answer<u32> {
    let s = *s;
    table::check_table(s, table)?;
    let (fingerprint, home) = s.entry_unchecked(tag)?;
    let d = s.reduce(fnv1a(&fingerprint.to_le_bytes()));
    let last = match s.rule {
        RING => across(s.buckets / 2, d, home),
        _ => home ^ d,
    };
    let sum = unsafe {
        let wanted = _mm_set1_epi16(fingerprint as i16);
        let mut lanes = _mm_add_epi16(
            equal(table, home, wanted, true),
            equal(table, last, wanted, last != home),
        );
        if s.rule == MASKED {
            let (a, b) = (home ^ (d & s.mask), home ^ (d & !s.mask));
            // Where one of the two is the home bucket, the other is the last.
            let both = (a != home) & (b != home);
            lanes = _mm_add_epi16(lanes, equal(table, a, wanted, both));
            lanes = _mm_add_epi16(lanes, equal(table, b, wanted, both));
        }
        _mm_cvtsi128_si64(_mm_sub_epi16(_mm_setzero_si128(), lanes)) as u64
    };
    // The four lanes added up, in the highest.
    Ok((sum.wrapping_mul(0x0001_0001_0001_0001) >> 48) as u32)
}

/// The lanes as numbers.
fn numbers(lanes: __m128i) -> [u16; 8] {
    let mut numbers = [0; 8];
    // They are the sixteen bytes that are written.
    unsafe { _mm_storeu_si128(numbers.as_mut_ptr().cast(), lanes) };
    numbers
}

/// All cells of a table put together by or, and how many of them are filled.
fn survey(table: &[u16]) -> (u16, usize) {
    let blocks = table.chunks_exact(32);
    let rest = blocks.remainder();
    let mut any = rest.iter().fold(0, |any, cell| any | cell);
    let mut filled = table.len() - rest.iter().filter(|&&cell| cell == 0).count();
    // A lane counts two cells of a block, and a table has 8,192 blocks at most. The 32 cells of a
    // block are the four times sixteen bytes that are read.
    unsafe {
        let zero = _mm_setzero_si128();
        let (mut ors, mut empty) = ([zero; 2], [zero; 2]);
        for block in blocks {
            let from: *const __m128i = block.as_ptr().cast();
            for i in 0..4 {
                let cells = _mm_loadu_si128(from.add(i));
                ors[i % 2] = _mm_or_si128(ors[i % 2], cells);
                empty[i % 2] = _mm_sub_epi16(empty[i % 2], _mm_cmpeq_epi16(cells, zero));
            }
        }
        for lane in numbers(_mm_or_si128(ors[0], ors[1])) {
            any |= lane;
        }
        for lane in numbers(_mm_add_epi16(empty[0], empty[1])) {
            filled -= usize::from(lane);
        }
    }
    (any, filled)
}
