//! The packed form: the sorted buckets as one string of bits.
//!
//! A bucket is a number of 4 × (w − 1) bits, so two buckets fill w − 1 bytes. Only a table of one
//! bucket has none to go with it.

use crate::holdfile::{check_cells, check_table};
use crate::index::{Answer, Settings};

/// Cells in a bucket.
pub(crate) const CELLS: usize = 4;
/// Different leads.
const LEADS: usize = 16;
/// Ascending quadruples of leads.
pub(crate) const ROWS: usize = 3_876;
/// Bits of a row number.
pub(crate) const ROW_BITS: usize = 12;

/// Every ascending quadruple of leads, in dictionary order.
pub(crate) static QUADRUPLES: [[u16; CELLS]; ROWS] = {
    let mut all = [[0; CELLS]; ROWS];
    let mut row = 0;
    while row + 1 < ROWS {
        // The last lead that can still grow does, and those behind it start from there.
        let mut next = all[row];
        let mut i = CELLS - 1;
        while next[i] as usize == LEADS - 1 {
            i -= 1;
        }
        let lead = next[i] + 1;
        while i < CELLS {
            next[i] = lead;
            i += 1;
        }
        row += 1;
        all[row] = next;
    }
    all
};

/// How many ascending lists of so many leads have none below this: each more lead multiplies and
/// divides the count, as along a diagonal of Pascal's triangle.
const fn from(length: usize, lead: usize) -> usize {
    let (mut count, mut i) = (1, 0);
    while i < length {
        count = count * (LEADS - lead + i) / (i + 1);
        i += 1;
    }
    count
}

/// How many ascending lists of so many leads start with one below this.
const fn below(length: usize, lead: usize) -> usize {
    from(length, 0) - from(length, lead)
}

/// What each lead but the last adds to the row number, by its place.
///
/// Ahead of (a, b, c, d) stand the quadruples that start below a; of those with a the triples from
/// a on that start below b; of those with b the pairs from b on that start below c; and d − c more.
static SHARES: [[u16; LEADS]; CELLS - 1] = {
    let mut shares = [[0; LEADS]; CELLS - 1];
    let mut i = 0;
    while i < CELLS - 1 {
        let mut lead = 0;
        while lead < LEADS {
            shares[i][lead] = (below(CELLS - i, lead) - below(CELLS - i - 1, lead)) as u16;
            lead += 1;
        }
        i += 1;
    }
    shares
};

/// The row number of four ascending leads.
fn row([a, b, c, d]: [u16; CELLS]) -> u16 {
    let share = |i: usize, lead: u16| SHARES[i][usize::from(lead) % LEADS];
    share(0, a) + share(1, b) + share(2, c) + d
}

fn sorted([a, b, c, d]: [u16; CELLS]) -> [u16; CELLS] {
    let order = |x: u16, y: u16| (x.min(y), x.max(y));
    let ((a, b), (c, d)) = (order(a, b), order(c, d));
    let ((a, c), (b, d)) = (order(a, c), order(b, d));
    let (b, c) = order(b, c);
    [a, b, c, d]
}

fn ascending([a, b, c, d]: [u16; CELLS]) -> bool {
    a <= b && b <= c && c <= d
}

/// The bits of a bucket, whose cells may be in any order.
fn join<const W: usize>(cells: &[u16]) -> u64 {
    let rest = W - 4;
    let cells = sorted([cells[0], cells[1], cells[2], cells[3]]);
    let row = row(cells.map(|cell| cell >> rest));
    (0..CELLS).fold(u64::from(row), |bits, i| {
        bits | u64::from(cells[i] & ((1 << rest) - 1)) << (ROW_BITS + rest * i)
    })
}

/// The bucket that has these bits, ascending or not.
fn split<const W: usize>(bits: u64) -> Answer<[u16; CELLS]> {
    let rest = W - 4;
    let row = bits as usize % (1 << ROW_BITS);
    let leads = QUADRUPLES.get(row).ok_or(18u32)?;
    let rests = bits >> ROW_BITS;
    Ok(std::array::from_fn(|i| {
        leads[i] << rest | (rests >> (rest * i)) as u16 & ((1 << rest) - 1)
    }))
}

/// Bits of a bucket.
pub(crate) const fn bucket_bits(width: usize) -> usize {
    CELLS * (width - 1)
}

/// How many bytes the form has.
pub(crate) fn length(settings: Settings) -> usize {
    (bucket_bits(settings.width as usize) * settings.buckets as usize + 7) / 8
}

/// Calls a function that is made for each width.
macro_rules! at_width {
    ($width:expr, $call:ident($($with:expr),*)) => {
        match $width {
            4 => $call::<4>($($with),*),
            5 => $call::<5>($($with),*),
            6 => $call::<6>($($with),*),
            7 => $call::<7>($($with),*),
            8 => $call::<8>($($with),*),
            9 => $call::<9>($($with),*),
            10 => $call::<10>($($with),*),
            11 => $call::<11>($($with),*),
            12 => $call::<12>($($with),*),
            13 => $call::<13>($($with),*),
            14 => $call::<14>($($with),*),
            15 => $call::<15>($($with),*),
            16 => $call::<16>($($with),*),
            width => unreachable!("width {width}"),
        }
    };
}
#[cfg(target_arch = "x86_64")]
pub(crate) use at_width;

pub(crate) fn pack<const W: usize>(table: &[u16], out: &mut [u8]) {
    let pairs = table.chunks_exact(2 * CELLS);
    let last = pairs.remainder();
    let mut places = out.chunks_exact_mut(W - 1);
    for (pair, place) in pairs.zip(&mut places) {
        let [low, high] = [0, CELLS].map(|i| u128::from(join::<W>(&pair[i..i + CELLS])));
        let both = low | high << bucket_bits(W);
        place.copy_from_slice(&both.to_le_bytes()[..W - 1]);
    }
    if !last.is_empty() {
        let place = places.into_remainder();
        let bytes = join::<W>(last).to_le_bytes();
        place.copy_from_slice(&bytes[..place.len()]);
    }
}

/// Writes the packed form, and answers how many bytes it has.
pub fn write(settings: Settings, table: &[u16], out: &mut [u8]) -> Answer<usize> {
    check_table(settings, table)?;
    check_cells(settings, table)?;
    let out = out.get_mut(..length(settings)).ok_or(16u32)?;
    at_width!(settings.width, pack(table, out));
    Ok(out.len())
}

/// The bits of two buckets that follow each other.
fn pair<const W: usize>(bytes: &[u8]) -> [u64; 2] {
    let mut both = [0; 16];
    both[..W - 1].copy_from_slice(&bytes[..W - 1]);
    let both = u128::from_le_bytes(both);
    let low = both as u64 & ((1 << bucket_bits(W)) - 1);
    [low, (both >> bucket_bits(W)) as u64]
}

/// The bits of the one bucket, with those that fill the last byte.
fn single(bytes: &[u8]) -> u64 {
    let mut word = [0; 8];
    word[..bytes.len()].copy_from_slice(bytes);
    u64::from_le_bytes(word)
}

/// Hands each bucket to `each`, the first first, then checks the filling bits.
fn unpack<const W: usize>(
    bytes: &[u8],
    mut each: impl FnMut([u16; CELLS]) -> Answer<()>,
) -> Answer<()> {
    let pairs = bytes.chunks_exact(W - 1);
    let last = pairs.remainder();
    for chunk in pairs {
        let [low, high] = pair::<W>(chunk);
        each(split::<W>(low)?)?;
        each(split::<W>(high)?)?;
    }
    if !last.is_empty() {
        let bits = single(last);
        each(split::<W>(bits)?)?;
        if bits >> bucket_bits(W) != 0 {
            return Err(20);
        }
    }
    Ok(())
}

pub(crate) fn check_then_fill<const W: usize>(bytes: &[u8], table: &mut [u16]) -> Answer<usize> {
    unpack::<W>(bytes, |cells| {
        if !ascending(cells) {
            return Err(19);
        }
        Ok(())
    })?;
    let mut buckets = table.chunks_exact_mut(CELLS);
    let mut filled = 0;
    unpack::<W>(bytes, |cells| {
        if let Some(bucket) = buckets.next() {
            bucket.copy_from_slice(&cells);
        }
        filled += cells.iter().filter(|&&cell| cell != 0).count();
        Ok(())
    })?;
    Ok(filled)
}

/// Reads the packed form into the table, and answers how many cells are filled.
pub fn read(settings: Settings, bytes: &[u8], table: &mut [u16]) -> Answer<usize> {
    check_table(settings, table)?;
    match bytes.len() {
        n if n < length(settings) => Err(11),
        n if n > length(settings) => Err(15),
        _ => at_width!(settings.width, check_then_fill(bytes, table)),
    }
}

#[cfg(test)]
mod tests {
    use super::*;
    use crate::index::{MASKED, PLAIN, RING};
    use crate::requests::Mix;

    fn refusal(settings: Settings, bytes: &[u8], cells: usize) -> u32 {
        let mut table = vec![0x5a5a; cells];
        let answer = read(settings, bytes, &mut table);
        assert!(table.iter().all(|&cell| cell == 0x5a5a));
        answer.unwrap_err()
    }

    fn write_refusal(settings: Settings, table: &[u16], room: usize) -> u32 {
        let mut out = vec![0xee; room];
        let answer = write(settings, table, &mut out);
        assert!(out.iter().all(|&byte| byte == 0xee));
        answer.unwrap_err()
    }

    #[test]
    fn rows() {
        assert_eq!(row([0, 0, 0, 0]), 0);
        assert_eq!(row([0, 0, 0, 15]), 15);
        assert_eq!(row([0, 0, 1, 1]), 16);
        assert_eq!(row([0, 1, 1, 1]), 136);
        assert_eq!(row([1, 1, 1, 1]), 816);
        assert_eq!(row([15, 15, 15, 15]), 3_875);
    }

    #[test]
    fn rows_are_all_ascending_quadruples_in_order() {
        let mut all = vec![];
        for a in 0..16 {
            for b in a..16 {
                for c in b..16 {
                    for d in c..16 {
                        all.push([a, b, c, d]);
                    }
                }
            }
        }
        assert_eq!(all, QUADRUPLES);
        for (i, &leads) in QUADRUPLES.iter().enumerate() {
            assert_eq!(usize::from(row(leads)), i, "{leads:?}");
        }
    }

    #[test]
    fn sorting() {
        // A network that sorts every list of zeros and ones sorts every list.
        for bits in 0..16 {
            let list = [0, 1, 2, 3].map(|i| bits >> i & 1);
            assert!(ascending(sorted(list)), "{list:?}");
        }
    }

    #[test]
    fn example() {
        let settings = Settings::new(PLAIN, 4, 1, 0);
        let mut out = [0xee; 4];
        assert_eq!(write(settings, &[0, 9, 0, 3], &mut out), Ok(2));
        assert_eq!(out, [0x33, 0x00, 0xee, 0xee]);
        let mut table = [7; 4];
        assert_eq!(read(settings, &[0x33, 0x00], &mut table), Ok(2));
        assert_eq!(table, [0, 0, 3, 9]);
    }

    #[test]
    fn bits_of_a_bucket() {
        // Leads 0, 1, 1, 15 and rests 2, 0, 3, 1.
        let settings = Settings::new(PLAIN, 6, 1, 0);
        let cells = [61, 2, 7, 4];
        let row = 136 + 14;
        let bits: u32 = row | 2 << 12 | 3 << 16 | 1 << 18;
        let mut out = [0; 3];
        assert_eq!(write(settings, &cells, &mut out), Ok(3));
        assert_eq!(out, bits.to_le_bytes()[..3]);
        // The second bucket starts in the middle of byte 7.
        let settings = Settings::new(PLAIN, 16, 2, 0);
        let cells = [0x1000, 0x1fff, 0x1123, 0x1abc, 0, 0, 0, 0x1fff];
        let mut out = [0; 15];
        assert_eq!(write(settings, &cells, &mut out), Ok(15));
        let first: u64 = 816 | 0x123 << 24 | 0xabc << 36 | 0xfff << 48;
        let second: u64 = 1 | 0xfff << 48;
        assert_eq!(out[..7], first.to_le_bytes()[..7]);
        assert_eq!(out[7], (first >> 56 | second << 4 & 0xf0) as u8);
        assert_eq!(out[8..], (second >> 4).to_le_bytes()[..7]);
    }

    #[test]
    fn round_trips() {
        let mut mix = Mix(12);
        for width in 4..=16 {
            for settings in [
                Settings::new(PLAIN, width, 1, 0),
                Settings::new(RING, width, 2, 0),
                Settings::new(RING, width, 6, 0),
                Settings::new(RING, width, 10, 0),
                Settings::new(MASKED, width, 64, 62),
                Settings::new(PLAIN, width, 4_096, 0),
                Settings::new(PLAIN, width, 65_536, 0),
            ] {
                for empty in [0, 2, 100] {
                    let table: Vec<u16> = (0..4 * settings.buckets)
                        .map(|_| match mix.below(4) < empty {
                            true => 0,
                            false => mix.below(1 << width) as u16,
                        })
                        .collect();
                    let length = length(settings);
                    let mut out = mix.bytes(length + 3);
                    let before = out.clone();
                    assert_eq!(write(settings, &table, &mut out), Ok(length));
                    assert_eq!(out[length..], before[length..]);
                    let mut buckets = table.clone();
                    for cells in buckets.chunks_mut(4) {
                        cells.sort_unstable();
                    }
                    let filled = table.iter().filter(|&&cell| cell != 0).count();
                    let mut back = vec![0xffff; table.len()];
                    assert_eq!(read(settings, &out[..length], &mut back), Ok(filled));
                    assert_eq!(back, buckets);
                    assert_eq!(write_refusal(settings, &table, length - 1), 16);
                }
            }
        }
    }

    #[test]
    fn writer_refuses_in_order() {
        let settings = |rule, width, buckets, mask| Settings::new(rule, width, buckets, mask);
        assert_eq!(write_refusal(settings(3, 3, 3, 3), &[99; 3], 0), 1);
        assert_eq!(write_refusal(settings(PLAIN, 3, 3, 3), &[99; 3], 0), 2);
        assert_eq!(write_refusal(settings(PLAIN, 4, 3, 3), &[99; 3], 0), 3);
        assert_eq!(write_refusal(settings(PLAIN, 4, 1, 3), &[99; 3], 0), 4);
        assert_eq!(write_refusal(settings(PLAIN, 4, 1, 0), &[99; 3], 0), 5);
        assert_eq!(write_refusal(settings(PLAIN, 4, 1, 0), &[99; 4], 0), 17);
        assert_eq!(
            write_refusal(settings(PLAIN, 4, 1, 0), &[0, 0, 0, 16], 9),
            17
        );
        assert_eq!(write_refusal(settings(PLAIN, 4, 1, 0), &[15; 4], 1), 16);
    }

    #[test]
    fn lengths() {
        for width in 4..=16 {
            let settings = Settings::new(PLAIN, width, 1, 0);
            let bytes = [0; 10];
            for n in 0..bytes.len() {
                let good = (4 * (width as usize - 1) + 7) / 8;
                let mut table = [7; 4];
                let answer = read(settings, &bytes[..n], &mut table);
                assert_eq!(
                    answer,
                    match n {
                        n if n < good => Err(11),
                        n if n > good => Err(15),
                        _ => Ok(0),
                    }
                );
            }
        }
    }

    #[test]
    fn reader_refuses_in_order() {
        let settings = |rule, width, buckets, mask| Settings::new(rule, width, buckets, mask);
        let all = [0xff; 4];
        assert_eq!(refusal(settings(3, 3, 3, 3), &all, 3), 1);
        assert_eq!(refusal(settings(PLAIN, 3, 3, 3), &all, 3), 2);
        assert_eq!(refusal(settings(PLAIN, 6, 3, 3), &all, 3), 3);
        assert_eq!(refusal(settings(PLAIN, 6, 1, 3), &all, 3), 4);
        assert_eq!(refusal(settings(PLAIN, 6, 1, 0), &all, 3), 5);
        assert_eq!(refusal(settings(PLAIN, 6, 1, 0), &all[..2], 4), 11);
        assert_eq!(refusal(settings(PLAIN, 6, 1, 0), &all, 4), 15);
        assert_eq!(refusal(settings(PLAIN, 6, 1, 0), &all[..3], 4), 18);
        // Row 0 has four equal leads: the rests 1, 0, 0, 0 descend.
        assert_eq!(refusal(settings(PLAIN, 6, 1, 0), &[0, 0x10, 0xf0], 4), 19);
        assert_eq!(refusal(settings(PLAIN, 6, 1, 0), &[0, 0, 0x10], 4), 20);
        assert_eq!(refusal(settings(PLAIN, 6, 1, 0), &[0, 0, 0x80], 4), 20);
        // The first bucket's 19 before the second's 18, and the other way about.
        let two = |first: u64, second: u64| {
            let bytes = (first | second << 20).to_le_bytes();
            refusal(settings(RING, 6, 2, 0), &bytes[..5], 8)
        };
        assert_eq!(two(0x1000, 0xfff), 19);
        assert_eq!(two(0xfff, 0x1000), 18);
        assert_eq!(two(0, 0xf24), 18);
        assert_eq!(two(0xf23, 0x1000), 19);
    }

    #[test]
    fn every_row_number() {
        let settings = Settings::new(PLAIN, 4, 1, 0);
        for number in 0..1u16 << 12 {
            let bytes = number.to_le_bytes();
            let mut table = [99; 4];
            match QUADRUPLES.get(usize::from(number)) {
                Some(leads) => {
                    let filled = leads.iter().filter(|&&lead| lead != 0).count();
                    assert_eq!(read(settings, &bytes, &mut table), Ok(filled));
                    assert_eq!(table, *leads);
                }
                None => {
                    assert_eq!(read(settings, &bytes, &mut table), Err(18));
                    assert_eq!(table, [99; 4]);
                }
            }
        }
    }
}
