//! The hold file in ordinary Rust: no branch is decided by a cell or by a bucket but in the last
//! few buckets, and, reading, where a block of bytes ends. Several lanes are used only where the
//! compiler finds them. The reader goes from bucket to bucket once, and fills the cells after that.

use crate::holdfile::{self, check_buckets, check_table, take_head, Head};
use crate::index::{Answer, Settings};

/// Cells in a bucket.
pub(crate) const CELLS: usize = 4;
/// Bytes of the longest bucket.
pub(crate) const LONGEST: usize = 9;
/// Buckets in the largest table.
const MOST: usize = 65_536;

/// How many bytes a bucket has, by the cells that it marks.
pub(crate) static LENGTHS: [u8; 16] = [1, 3, 3, 5, 3, 5, 5, 7, 3, 5, 5, 7, 5, 7, 7, 9];
/// How many of them are ahead of the fingerprints of its last two cells.
pub(crate) static AHEAD: [u8; 16] = [1, 3, 3, 5, 1, 3, 3, 5, 1, 3, 3, 5, 1, 3, 3, 5];

/// Four 16-bit numbers side by side, of which each is 1.
const ONES: u64 = 0x0001_0001_0001_0001;

/// All cells of a table put together by or, and how many of them are filled.
fn survey(table: &[u16]) -> (u16, usize) {
    let (mut any, mut filled) = (0, 0);
    // Small numbers make many lanes.
    for block in table.chunks(1_024) {
        let mut count = 0u16;
        for &cell in block {
            any |= cell;
            count += u16::from(cell != 0);
        }
        filled += usize::from(count);
    }
    (any, filled)
}

/// Cells that are prepared together.
const BLOCK: usize = CELLS * 12;

/// Of each cell whether it is filled, as 1 or 0, and what is written for it: the next one's value
/// where it is empty, so that of two cells of which one is filled the first gets its value. One cell
/// more than a block has to be there.
#[inline(always)]
fn prepare(table: &[u16], filled: &mut [u16; BLOCK], closed_up: &mut [u16; BLOCK]) {
    let (cells, next) = (&table[..BLOCK], &table[1..BLOCK + 1]);
    for i in 0..BLOCK {
        filled[i] = u16::from(cells[i] != 0);
    }
    for i in 0..BLOCK {
        closed_up[i] = cells[i] | next[i] & filled[i].wrapping_sub(1);
    }
}

/// Two cells as one number.
#[inline(always)]
fn both(cells: &[u16]) -> u32 {
    u32::from(cells[0]) | u32::from(cells[1]) << 16
}

/// A bit for each of four numbers that are 1 or 0.
#[inline(always)]
fn bits(filled: &[u16]) -> usize {
    let four = u64::from(both(filled)) | u64::from(both(&filled[2..])) << 32;
    (four.wrapping_mul(1 << 48 | 1 << 33 | 1 << 18 | 1 << 3) >> 48) as usize % 16
}

/// Writes blocks of buckets while eight or more buckets come after, and answers how many cells and
/// how many bytes these were. The output has to have room for all buckets of the table: then each
/// of these has nine bytes to write to. What is written beyond its fingerprints, the next one
/// writes over.
unsafe fn put(table: &[u16], out: &mut [u8]) -> (usize, usize) {
    let (mut filled, mut closed_up) = ([0; BLOCK], [0; BLOCK]);
    let mut rest = table;
    // Stores with a check take a tenth longer.
    let out = out.as_mut_ptr();
    let mut to = out;
    while rest.len() >= BLOCK + CELLS * (LONGEST - 1) {
        prepare(rest, &mut filled, &mut closed_up);
        let buckets = closed_up.chunks_exact(CELLS);
        for (filled, cells) in filled.chunks_exact(CELLS).zip(buckets) {
            let map = bits(filled);
            let [low, high] = [both(cells), both(&cells[2..])].map(u32::to_le);
            *to = map as u8;
            to.add(1).cast::<u32>().write_unaligned(low);
            let place = to.add(usize::from(AHEAD[map]));
            place.cast::<u32>().write_unaligned(high);
            to = to.add(usize::from(LENGTHS[map]));
        }
        rest = &rest[BLOCK..];
    }
    (table.len() - rest.len(), to.offset_from(out) as usize)
}

/// Writes buckets, and no byte beyond.
pub(crate) fn put_last(table: &[u16], out: &mut [u8]) {
    let mut at = 0;
    for cells in table.chunks_exact(CELLS) {
        let map = at;
        out[map] = 0;
        at += 1;
        for (i, &cell) in cells.iter().enumerate() {
            if cell != 0 {
                out[map] |= 1 << i;
                out[at..at + 2].copy_from_slice(&cell.to_le_bytes());
                at += 2;
            }
        }
    }
}

/// Writes the file, and answers how many bytes it has.
pub fn write(s: &Settings, table: &[u16], out: &mut [u8]) -> Answer<usize> {
    let s = *s;
    check_table(s, table)?;
    let (any, filled) = survey(table);
    if u32::from(any) >> s.width != 0 {
        return Err(17);
    }
    let head = Head::of(s);
    let head = head.as_slice();
    let length = head.len() + s.buckets as usize + 2 * filled;
    let out = out.get_mut(..length).ok_or(16u32)?;
    let (place, out) = out.split_at_mut(head.len());
    place.copy_from_slice(head);
    let (cells, at) = unsafe { put(table, out) };
    put_last(&table[cells..], &mut out[at..]);
    Ok(length)
}

/// Bytes from the start of a bucket that have to be there: nine, and more than any step, so that no
/// step needs a check.
const ROOM: usize = 16;
/// Bytes that are read together.
const BYTES: usize = 1_024;

/// The fingerprints among the four words of 16 bits that follow a bucket's first byte.
pub(crate) static FINGERPRINTS: [u64; 16] = {
    let mut all = [0; 16];
    let mut map = 1;
    while map < 16 {
        all[map] = u64::MAX >> (8 * (LONGEST - LENGTHS[map] as usize));
        map += 1;
    }
    all
};

/// What brings fingerprints to the marked cells: those that stay and those that go up by two
/// cells, and then those that stay and those that go up by one.
pub(crate) static MOVES: [[u64; 4]; 16] = {
    let mut all = [[0; 4]; 16];
    let mut map = 0;
    while map < 16 {
        let (mut cell, mut from) = (0, 0);
        while cell < CELLS {
            if map >> cell & 1 == 1 {
                let by = cell - from;
                all[map][by / 2] |= 0xffff << (16 * (cell - by % 2));
                all[map][2 + by % 2] |= 0xffff << (16 * cell);
                from += 1;
            }
            cell += 1;
        }
        map += 1;
    }
    all
};

/// The eight bytes that follow a bucket's first one.
#[inline(always)]
fn words(bucket: &[u8]) -> u64 {
    u64::from_le_bytes(bucket[1..LONGEST].try_into().expect("eight bytes"))
}

/// How many bytes a bucket has, as far as the low bits of its first byte tell it.
#[inline(always)]
fn length(map: u8) -> usize {
    // Digit by digit, for 15 down to 0.
    (0x9775_7553_7553_5331u64 >> (4 * (map % 16))) as usize % 16
}

/// The same, for as many bytes at a time as there are lanes.
#[inline(always)]
fn lengths(bytes: &[u8], to: &mut [u8; BYTES]) {
    for (length, byte) in to.iter_mut().zip(bytes) {
        let pairs = (byte & 5) + (byte >> 1 & 5);
        *length = 1 + 2 * ((pairs & 3) + (pairs >> 2));
    }
}

/// What the buckets so far have in them.
struct Seen {
    maps: u8,
    /// Their fingerprints put together by or.
    fingerprints: u64,
    /// The top bit of each number is set if one of them was 0.
    zeros: u64,
}

impl Seen {
    #[inline(always)]
    fn add(&mut self, bucket: &[u8]) {
        let words = words(bucket);
        let counted = FINGERPRINTS[usize::from(bucket[0] % 16)];
        self.maps |= bucket[0];
        self.fingerprints |= words & counted;
        // With the others set, a number is 0 exactly where a borrow goes out of one whose top bit
        // is clear.
        let filled = words | !counted;
        self.zeros |= filled.wrapping_sub(ONES) & !filled;
    }

    fn good(&self, width: u32) -> bool {
        let above = ONES * (0xffff << width & 0xffff);
        self.maps < 16 && self.fingerprints & above == 0 && self.zeros & (ONES << 15) == 0
    }
}

/// Goes from bucket to bucket while there is room, for as many buckets as `maps` has, notes their
/// first bytes there, and answers how many buckets and how many bytes these were.
#[inline(never)]
fn look(seen: &mut Seen, bytes: &[u8], maps: &mut [u8]) -> (usize, usize) {
    let (mut rest, mut count) = (bytes, 0);
    let mut steps = [0; BYTES];
    // So many bytes have so many buckets at most.
    while rest.len() >= BYTES + ROOM && maps.len() - count >= BYTES {
        let (block, maps) = (&rest[..BYTES + ROOM], &mut maps[count..]);
        lengths(block, &mut steps);
        let (mut at, mut looked_at) = (0, 0);
        while at < BYTES {
            let bucket = &block[at..at + ROOM];
            maps[looked_at] = bucket[0];
            looked_at += 1;
            seen.add(bucket);
            at += usize::from(steps[at]);
        }
        count += looked_at;
        rest = &rest[at..];
    }
    for map in &mut maps[count..] {
        if rest.len() < ROOM {
            break;
        }
        *map = rest[0];
        count += 1;
        seen.add(rest);
        rest = &rest[length(rest[0])..];
    }
    (count, bytes.len() - rest.len())
}

/// Fills the cells of the buckets that were looked at.
#[inline(never)]
fn get(bytes: &[u8], maps: &[u8], table: &mut [u16]) {
    let mut rest = bytes;
    for (cells, map) in table.chunks_exact_mut(CELLS).zip(maps) {
        let map = usize::from(map % 16);
        let words = words(&rest[..ROOM]);
        let [stay, by_two, still, by_one] = MOVES[map];
        let words = words & stay | words << 32 & by_two;
        // Going round, so that the four cells are seen to be one number.
        let words = words & still | words.rotate_left(16) & by_one;
        for (i, cell) in cells.iter_mut().enumerate() {
            *cell = (words >> (16 * i)) as u16;
        }
        rest = &rest[usize::from(LENGTHS[map]) % ROOM..];
    }
}

/// Fills the cells of the last buckets, which are good.
pub(crate) fn get_last(mut bytes: &[u8], table: &mut [u16]) {
    for cells in table.chunks_exact_mut(CELLS) {
        let map = bytes[0];
        bytes = &bytes[1..];
        for (i, cell) in cells.iter_mut().enumerate() {
            *cell = 0;
            if map >> i & 1 == 1 {
                *cell = u16::from_le_bytes([bytes[0], bytes[1]]);
                bytes = &bytes[2..];
            }
        }
    }
}

/// Reads the file into the table, and answers the settings. What is not found good is left to the
/// plain reader.
pub fn read(bytes: &[u8], table: &mut [u16]) -> Answer<Settings> {
    let mut rest = bytes;
    let settings = take_head(&mut rest)?;
    check_table(settings, table)?;
    let mut maps = [0; MOST];
    let mut seen = Seen {
        maps: 0,
        fingerprints: 0,
        zeros: 0,
    };
    let (count, end) = look(&mut seen, rest, &mut maps[..settings.buckets as usize]);
    if !seen.good(settings.width) {
        return holdfile::read(bytes, table);
    }
    let last = Settings {
        buckets: settings.buckets - count as u32,
        ..settings
    };
    check_buckets(last, &rest[end..])?;
    let (first, table) = table.split_at_mut(CELLS * count);
    get(rest, &maps, first);
    get_last(&rest[end..], table);
    Ok(settings)
}
