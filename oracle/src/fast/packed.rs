//! The packed form: eight buckets at a time are written, four are read.

use super::{numbers, survey};
use crate::holdfile::check_table;
use crate::index::{Answer, Settings};
use crate::packed::{
    at_width, bucket_bits, check_then_fill, length, pack, CELLS, QUADRUPLES, ROWS, ROW_BITS,
};
use std::arch::x86_64::{
    __m128i, _mm_add_epi16, _mm_and_si128, _mm_castpd_si128, _mm_cmpeq_epi16, _mm_cvtsi32_si128,
    _mm_load_sd, _mm_loadh_pd, _mm_loadu_si128, _mm_madd_epi16, _mm_max_epi16, _mm_min_epi16,
    _mm_mulhi_epu16, _mm_mullo_epi16, _mm_or_si128, _mm_set1_epi16, _mm_set1_epi32,
    _mm_set1_epi64x, _mm_setzero_si128, _mm_sll_epi32, _mm_sll_epi64, _mm_srl_epi16, _mm_srl_epi64,
    _mm_srli_epi16, _mm_srli_epi64, _mm_storeu_si128, _mm_sub_epi16, _mm_subs_epu16,
    _mm_unpackhi_epi16, _mm_unpackhi_epi32, _mm_unpackhi_epi64, _mm_unpacklo_epi16,
    _mm_unpacklo_epi32, _mm_unpacklo_epi64, _mm_xor_si128,
};

/// A number of bits to shift by, which is known when the function is made for its width.
#[inline(always)]
unsafe fn bits(count: usize) -> __m128i {
    _mm_cvtsi32_si128(count as i32)
}

/// The first cells of eight buckets, the second, the third and the fourth; buckets 0, 2, 4 and 6
/// are in the low half of each, the others in the high half.
#[inline(always)]
unsafe fn by_place(from: *const __m128i) -> [__m128i; CELLS] {
    let [a, b, c, d] = [0, 1, 2, 3].map(|i| _mm_loadu_si128(from.add(i)));
    let (e, f) = (_mm_unpacklo_epi16(a, b), _mm_unpacklo_epi16(c, d));
    let (o, p) = (_mm_unpackhi_epi16(a, b), _mm_unpackhi_epi16(c, d));
    let (even, odd) = (_mm_unpacklo_epi32(e, f), _mm_unpacklo_epi32(o, p));
    let (even_high, odd_high) = (_mm_unpackhi_epi32(e, f), _mm_unpackhi_epi32(o, p));
    [
        _mm_unpacklo_epi64(even, odd),
        _mm_unpackhi_epi64(even, odd),
        _mm_unpacklo_epi64(even_high, odd_high),
        _mm_unpackhi_epi64(even_high, odd_high),
    ]
}

#[inline(always)]
unsafe fn sorted<const W: usize>(cells: [__m128i; CELLS]) -> [__m128i; CELLS] {
    // Numbers are compared with a sign: with the top bit turned over they are in the same order.
    let top = _mm_set1_epi16(if W == 16 { i16::MIN } else { 0 });
    let [a, b, c, d] = cells.map(|cells| _mm_xor_si128(cells, top));
    let order = |x, y| (_mm_min_epi16(x, y), _mm_max_epi16(x, y));
    let ((a, b), (c, d)) = (order(a, b), order(c, d));
    let ((a, c), (b, d)) = (order(a, c), order(b, d));
    let (b, c) = order(b, c);
    [a, b, c, d].map(|cells| _mm_xor_si128(cells, top))
}

/// The row numbers: 3,875 − C(18 − a, 4) − C(17 − b, 3) − C(16 − c, 2) − (15 − d).
#[inline(always)]
unsafe fn rows([a, b, c, d]: [__m128i; CELLS]) -> __m128i {
    let less = |n, x| _mm_sub_epi16(_mm_set1_epi16(n), x);
    let plus = |x, n| _mm_add_epi16(x, _mm_set1_epi16(n));
    let half = |x| _mm_srli_epi16(x, 1);
    // Exact for multiples of 6 below 65,536.
    let sixth = |x| _mm_mulhi_epu16(x, _mm_set1_epi16(10_923));
    // With u half of (18 − a)(15 − a), half of (17 − a)(16 − a) is u + 1.
    let u = half(_mm_mullo_epi16(less(18, a), less(15, a)));
    let quadruples = sixth(_mm_mullo_epi16(u, plus(u, 1)));
    let n = less(16, b);
    let triples = sixth(_mm_mullo_epi16(plus(_mm_mullo_epi16(n, n), -1), n));
    let pairs = half(_mm_mullo_epi16(less(16, c), less(15, c)));
    let after = _mm_add_epi16(_mm_add_epi16(quadruples, triples), pairs);
    _mm_sub_epi16(plus(d, 3_860), after)
}

/// Writes eight buckets at a time. Sixteen bytes are written from the start of each two, all of
/// which have to be there; what is beyond the two, the next two write over.
#[inline(always)]
unsafe fn put<const W: usize>(table: &[u16], out: &mut [u8]) {
    let rest = W - 4;
    let low = _mm_set1_epi16((1 << rest) - 1);
    let zero = _mm_setzero_si128();
    // The second of two numbers goes above the first.
    let above_row = _mm_set1_epi32(1 | (1 << ROW_BITS) << 16);
    let above_rest = _mm_set1_epi32(1 | (1 << rest) << 16);
    let mut to = out.as_mut_ptr();
    for block in table.chunks_exact(8 * CELLS) {
        let cells = sorted::<W>(by_place(block.as_ptr().cast()));
        let row = rows(cells.map(|cells| _mm_srl_epi16(cells, bits(rest))));
        let [a, b, c, d] = cells.map(|cells| _mm_and_si128(cells, low));
        // Row and first rest at the top of 32 bits, the next two rests at the bottom of 32 bits, and
        // the last one in the highest 16 of 64.
        let first = [_mm_unpacklo_epi16(row, a), _mm_unpackhi_epi16(row, a)]
            .map(|two| _mm_sll_epi32(_mm_madd_epi16(two, above_row), bits(20 - rest)));
        let middle = [_mm_unpacklo_epi16(b, c), _mm_unpackhi_epi16(b, c)]
            .map(|two| _mm_madd_epi16(two, above_rest));
        let last = [_mm_unpacklo_epi16(zero, d), _mm_unpackhi_epi16(zero, d)];
        let join = |most, last| {
            _mm_or_si128(
                _mm_srl_epi64(most, bits(20 - rest)),
                _mm_srl_epi64(last, bits(36 - 3 * rest)),
            )
        };
        let low_half = |i: usize| {
            join(
                _mm_unpacklo_epi32(first[i], middle[i]),
                _mm_unpacklo_epi32(zero, last[i]),
            )
        };
        let high_half = |i: usize| {
            join(
                _mm_unpackhi_epi32(first[i], middle[i]),
                _mm_unpackhi_epi32(zero, last[i]),
            )
        };
        for [even, odd] in [[0, 1].map(low_half), [0, 1].map(high_half)] {
            let low = _mm_or_si128(even, _mm_sll_epi64(odd, bits(bucket_bits(W))));
            let high = _mm_srl_epi64(odd, bits(64 - bucket_bits(W)));
            _mm_storeu_si128(to.cast(), _mm_unpacklo_epi64(low, high));
            to = to.add(W - 1);
            _mm_storeu_si128(to.cast(), _mm_unpackhi_epi64(low, high));
            to = to.add(W - 1);
        }
    }
}

fn put_all<const W: usize>(table: &[u16], out: &mut [u8]) {
    // Ten buckets have fifteen bytes or more, and two that they follow have three more.
    let blocks = (table.len() / CELLS).saturating_sub(10) / 8;
    let (first, last) = table.split_at(8 * CELLS * blocks);
    unsafe { put::<W>(first, out) };
    pack::<W>(last, &mut out[4 * (W - 1) * blocks..]);
}

/// Writes the packed form, and answers how many bytes it has. No branch is decided by a cell.
pub fn write(s: &Settings, table: &[u16], out: &mut [u8]) -> Answer<usize> {
    let s = *s;
    check_table(s, table)?;
    let (any, _) = survey(table);
    if u32::from(any) >> s.width != 0 {
        return Err(17);
    }
    let out = out.get_mut(..length(s)).ok_or(16u32)?;
    at_width!(s.width, put_all(table, out));
    Ok(out.len())
}

/// The leads of a row as the top bits of four cells of 16 bits. Those of a number that is no row
/// descend, so that no bucket with it ascends.
static LEADS: [u64; 1 << ROW_BITS] = {
    let mut all = [1 << 12; 1 << ROW_BITS];
    let mut row = 0;
    while row < ROWS {
        let [a, b, c, d] = QUADRUPLES[row];
        all[row] = (a as u64 | (b as u64) << 16 | (c as u64) << 32 | (d as u64) << 48) << 12;
        row += 1;
    }
    all
};

/// The leads of the row whose number starts at a bit of the bytes.
#[inline(always)]
unsafe fn lead(bytes: *const u8, bit: usize) -> *const u64 {
    let number = usize::from(bytes.cast::<u16>().read_unaligned()) >> bit;
    &LEADS[number % LEADS.len()]
}

/// Two words of 64 bits side by side.
#[inline(always)]
unsafe fn words<T>(low: *const T, high: *const T) -> __m128i {
    _mm_castpd_si128(_mm_loadh_pd(_mm_load_sd(low.cast()), high.cast()))
}

/// The four lowest rests of each word, one to a cell.
#[inline(always)]
unsafe fn spread<const W: usize>(word: __m128i) -> __m128i {
    let rest = W - 4;
    let kept = |word, mask: u64| _mm_and_si128(word, _mm_set1_epi64x(mask as i64));
    let up = |word, by| _mm_sll_epi64(word, bits(by));
    let (one, two) = ((1u64 << rest) - 1, (1u64 << (2 * rest)) - 1);
    let word = _mm_or_si128(kept(word, two), kept(up(word, 32 - 2 * rest), two << 32));
    _mm_or_si128(
        kept(word, one | one << 32),
        kept(up(word, 16 - rest), one << 16 | one << 48),
    )
}

/// The cells of a bucket of each pair, which starts at a bit of its pair.
#[inline(always)]
unsafe fn two<const W: usize>(low: *const u8, high: *const u8, bit: usize) -> __m128i {
    let at = bit / 8;
    let (low_row, high_row) = (lead(low.add(at), bit % 8), lead(high.add(at), bit % 8));
    let leads = _mm_srl_epi16(words(low_row, high_row), bits(16 - W));
    let rest = bit + ROW_BITS;
    let at = rest / 8;
    let rests = _mm_srl_epi64(words(low.add(at), high.add(at)), bits(rest % 8));
    _mm_or_si128(leads, spread::<W>(rests))
}

/// The cells of four buckets: of the first and the third, and of the second and the fourth.
#[inline(always)]
unsafe fn four<const W: usize>(bytes: *const u8) -> [__m128i; 2] {
    let high = bytes.add(W - 1);
    [
        two::<W>(bytes, high, 0),
        two::<W>(bytes, high, bucket_bits(W)),
    ]
}

/// Whether so many times four buckets all have rows and ascend.
#[inline(always)]
unsafe fn good<const W: usize>(bytes: *const u8, fours: usize) -> bool {
    let mut faults = [_mm_setzero_si128(); 2];
    for i in 0..fours {
        let cells = four::<W>(bytes.add(2 * (W - 1) * i));
        for (faults, cells) in faults.iter_mut().zip(cells) {
            // What a cell is above the next one; there is none after the last.
            let above = _mm_subs_epu16(cells, _mm_srli_epi64(cells, 16));
            *faults = _mm_or_si128(*faults, above);
        }
    }
    let faults = numbers(_mm_or_si128(faults[0], faults[1]));
    faults
        .iter()
        .enumerate()
        .all(|(i, &n)| n == 0 || i % CELLS == 3)
}

/// Fills the cells of so many times four buckets, and answers how many are filled.
#[inline(always)]
unsafe fn fill<const W: usize>(bytes: *const u8, fours: usize, table: *mut u16) -> usize {
    let zero = _mm_setzero_si128();
    let mut empty = [zero; 2];
    for i in 0..fours {
        let cells = four::<W>(bytes.add(2 * (W - 1) * i));
        for (empty, cells) in empty.iter_mut().zip(cells) {
            *empty = _mm_sub_epi16(*empty, _mm_cmpeq_epi16(cells, zero));
        }
        let to: *mut __m128i = table.add(4 * CELLS * i).cast();
        _mm_storeu_si128(to, _mm_unpacklo_epi64(cells[0], cells[1]));
        _mm_storeu_si128(to.add(1), _mm_unpackhi_epi64(cells[0], cells[1]));
    }
    // A lane counts two cells of each four buckets, of which a table has 16,384 at most.
    let empty = numbers(_mm_add_epi16(empty[0], empty[1]));
    4 * CELLS * fours - empty.iter().map(|&n| usize::from(n)).sum::<usize>()
}

fn get_all<const W: usize>(bytes: &[u8], table: &mut [u16]) -> Answer<usize> {
    // Four buckets are read to eight bytes beyond their end at most.
    let size = 2 * (W - 1);
    let fours = bytes.len().saturating_sub(8) / size;
    let (first, last) = bytes.split_at(size * fours);
    if !unsafe { good::<W>(first.as_ptr(), fours) } {
        return check_then_fill::<W>(bytes, table);
    }
    let (cells, rest) = table.split_at_mut(4 * CELLS * fours);
    let filled = check_then_fill::<W>(last, rest)?;
    Ok(filled + unsafe { fill::<W>(first.as_ptr(), fours, cells.as_mut_ptr()) })
}

/// Reads the packed form into the table, and answers how many cells are filled. What the fast check
/// does not find good is left to the plain one.
pub fn read(s: &Settings, bytes: &[u8], table: &mut [u16]) -> Answer<usize> {
    let s = *s;
    check_table(s, table)?;
    match bytes.len() {
        n if n < length(s) => Err(11),
        n if n > length(s) => Err(15),
        _ => at_width!(s.width, get_all(bytes, table)),
    }
}
