//! The hold file: the settings, as far as they are not the defaults, and the filled cells.

use crate::index::{Answer, Settings, MASKED, PLAIN};

/// Cells in a bucket.
const CELLS: usize = 4;

/// What a field that is not in the file has.
const DEFAULTS: Settings = Settings {
    rule: PLAIN,
    width: 12,
    buckets: 4_096,
    mask: 0,
    salt: 0,
};

/// Bytes of the longest head: the map and all fields.
pub const HEAD: usize = 15;

/// The bits of the map, in the order of the fields.
const RULE: u8 = 1;
const WIDTH: u8 = 2;
const BUCKETS: u8 = 4;
const MASK: u8 = 8;
const SALT: u8 = 16;
/// A field without bytes, which every file has: its fingerprints are even. Files from before it have
/// other fingerprints, and no cell tells which.
const EVEN: u8 = 32;

/// Four 16-bit numbers side by side, of which each is 1.
const ONES: u64 = 0x0001_0001_0001_0001;

pub(crate) fn check_table(settings: Settings, table: &[u16]) -> Answer<()> {
    settings.check()?;
    if table.len() != CELLS * settings.buckets as usize {
        return Err(5);
    }
    Ok(())
}

/// What either writer checks before its output, where settings and table are known to be good.
pub(crate) fn check_cells(settings: Settings, table: &[u16]) -> Answer<()> {
    let any = table.iter().fold(0, |any, cell| any | cell);
    if u32::from(any) >> settings.width != 0 {
        return Err(17);
    }
    Ok(())
}

/// The map and the fields that follow it.
pub(crate) struct Head {
    bytes: [u8; HEAD],
    length: usize,
}

impl Head {
    pub(crate) fn of(settings: Settings) -> Self {
        let mut head = Head {
            bytes: [0; HEAD],
            length: 1,
        };
        if settings.rule != DEFAULTS.rule {
            head.push(RULE, &[settings.rule as u8]);
        }
        if settings.width != DEFAULTS.width {
            head.push(WIDTH, &[settings.width as u8]);
        }
        if settings.buckets != DEFAULTS.buckets {
            head.push(BUCKETS, &((settings.buckets - 1) as u16).to_le_bytes());
        }
        if settings.rule == MASKED {
            head.push(MASK, &(settings.mask as u16).to_le_bytes());
        }
        if settings.salt != DEFAULTS.salt {
            head.push(SALT, &settings.salt.to_le_bytes());
        }
        head.push(EVEN, &[]);
        head
    }

    fn push(&mut self, bit: u8, field: &[u8]) {
        self.bytes[0] |= bit;
        self.bytes[self.length..][..field.len()].copy_from_slice(field);
        self.length += field.len();
    }

    pub(crate) fn as_slice(&self) -> &[u8] {
        &self.bytes[..self.length]
    }
}

/// How many bytes the file would have.
pub fn file_length(settings: Settings, table: &[u16]) -> Answer<usize> {
    check_table(settings, table)?;
    check_cells(settings, table)?;
    Ok(counted(Head::of(settings).as_slice(), table))
}

/// How many bytes a head and the buckets of a table have: one for each bucket and two for each
/// filled cell.
#[inline]
fn counted(head: &[u8], table: &[u16]) -> usize {
    let filled = table.iter().filter(|&&cell| cell != 0).count();
    head.len() + table.len() / CELLS + 2 * filled
}

/// Writes the file, and answers how many bytes it has.
pub fn write(settings: Settings, table: &[u16], out: &mut [u8]) -> Answer<usize> {
    check_table(settings, table)?;
    write_unchecked(settings, table, out)
}

/// The writing, where settings and table are known to be good.
#[inline]
pub(crate) fn write_unchecked(settings: Settings, table: &[u16], out: &mut [u8]) -> Answer<usize> {
    check_cells(settings, table)?;
    let head = Head::of(settings);
    let head = head.as_slice();
    let length = counted(head, table);
    let out = out.get_mut(..length).ok_or(16u32)?;
    out[..head.len()].copy_from_slice(head);
    let mut at = head.len();
    for cells in table.chunks_exact(CELLS) {
        // An empty cell adds nothing and takes no room.
        let (mut map, mut prints, mut bits) = (0, 0, 0);
        for (i, &cell) in cells.iter().enumerate() {
            let filled = usize::from(cell != 0);
            map |= filled << i;
            prints |= u64::from(cell) << bits;
            bits += 16 * filled;
        }
        let prints = prints.to_le_bytes();
        let length = bits / 8;
        out[at] = map as u8;
        at += 1;
        // What is written beyond the fingerprints, the next bucket writes over.
        match out.get_mut(at..at + prints.len()) {
            Some(place) => place.copy_from_slice(&prints),
            None => out[at..at + length].copy_from_slice(&prints[..length]),
        }
        at += length;
    }
    Ok(length)
}

/// The next bytes, all of them, or 11.
fn take<const N: usize>(bytes: &mut &[u8]) -> Answer<[u8; N]> {
    let field = bytes.get(..N).ok_or(11u32)?;
    *bytes = &bytes[N..];
    Ok(field.try_into().expect("so many bytes"))
}

/// Takes the map and the fields.
pub(crate) fn take_head(bytes: &mut &[u8]) -> Answer<Settings> {
    let [map] = take(bytes)?;
    if map >> 6 != 0 {
        return Err(12);
    }
    if map & EVEN == 0 {
        return Err(23);
    }
    let present = |bit: u8| map & bit != 0;
    let mut settings = DEFAULTS;
    if present(RULE) {
        settings.rule = u8::from_le_bytes(take(bytes)?).into();
    }
    if present(WIDTH) {
        settings.width = u8::from_le_bytes(take(bytes)?).into();
    }
    if present(BUCKETS) {
        settings.buckets = u32::from(u16::from_le_bytes(take(bytes)?)) + 1;
    }
    if present(MASK) {
        settings.mask = u16::from_le_bytes(take(bytes)?).into();
    }
    if present(SALT) {
        settings.salt = u64::from_le_bytes(take(bytes)?);
    }
    if present(RULE) && settings.rule == DEFAULTS.rule
        || present(WIDTH) && settings.width == DEFAULTS.width
        || present(BUCKETS) && settings.buckets == DEFAULTS.buckets
        || present(MASK) != (settings.rule == MASKED)
        || present(SALT) && settings.salt == DEFAULTS.salt
    {
        return Err(12);
    }
    Ok(settings)
}

/// How many cells a good bucket byte marks: digit by digit, for 15 down to 0.
fn marked(map: u8) -> usize {
    (0x4332_3221_3221_2110u64 >> (4 * map)) as usize % 16
}

/// The first eight bytes as one number, with zeros where there are fewer.
fn word(bytes: &[u8]) -> u64 {
    match bytes.get(..8) {
        Some(chunk) => u64::from_le_bytes(chunk.try_into().expect("eight bytes")),
        None => bytes
            .iter()
            .rev()
            .fold(0, |word, &byte| word << 8 | u64::from(byte)),
    }
}

/// Whether each of the lowest `count` of four 16-bit numbers is a fingerprint.
fn all_prints(word: u64, count: usize, width: u32) -> bool {
    let unused = u64::MAX.checked_shl(16 * count as u32).unwrap_or(0);
    let above = ONES * (0xffff << width & 0xffff);
    // With the others set, a number is 0 exactly where a borrow goes out of one whose top bit is
    // clear.
    let filled = word | unused;
    let borrows = filled.wrapping_sub(ONES) & !filled & (ONES << 15);
    word & above & !unused == 0 && borrows == 0
}

/// Checks the buckets and what follows them, in the order of the bytes.
pub(crate) fn check_buckets(settings: Settings, bytes: &[u8]) -> Answer<()> {
    let mut rest = bytes;
    for _ in 0..settings.buckets {
        let [map] = take(&mut rest)?;
        if map > 15 {
            return Err(13);
        }
        let count = marked(map);
        let whole = count.min(rest.len() / 2);
        if !all_prints(word(rest), whole, settings.width) {
            return Err(14);
        }
        rest = rest.get(2 * count..).ok_or(11u32)?;
    }
    if !rest.is_empty() {
        return Err(15);
    }
    Ok(())
}

/// Reads the file into the table, and answers the settings.
pub fn read(bytes: &[u8], table: &mut [u16]) -> Answer<Settings> {
    let mut rest = bytes;
    let settings = take_head(&mut rest)?;
    check_table(settings, table)?;
    check_buckets(settings, rest)?;
    for cells in table.chunks_exact_mut(CELLS) {
        let map = rest[0];
        let mut prints = word(&rest[1..]);
        for (i, cell) in cells.iter_mut().enumerate() {
            let filled = map >> i & 1;
            *cell = prints as u16 * u16::from(filled);
            prints >>= 16 * filled;
        }
        rest = &rest[1 + 2 * marked(map)..];
    }
    Ok(settings)
}

/// Writes the list of a file whose mask does no work as a file of the plain rule, and answers how
/// many bytes it has. An entry has the same candidates there, so that every cell can stay.
pub fn convert(bytes: &[u8], out: &mut [u8]) -> Answer<usize> {
    let mut rest = bytes;
    let settings = take_head(&mut rest)?;
    settings.former_check()?;
    check_buckets(settings, rest)?;
    if !settings.idle_mask() {
        return Err(24);
    }
    let head = Head::of(Settings {
        rule: PLAIN,
        mask: DEFAULTS.mask,
        ..settings
    });
    let head = head.as_slice();
    let length = head.len() + rest.len();
    let out = out.get_mut(..length).ok_or(16u32)?;
    out[..head.len()].copy_from_slice(head);
    out[head.len()..].copy_from_slice(rest);
    Ok(length)
}

#[cfg(test)]
mod tests {
    use super::*;
    use crate::former;
    use crate::index::RING;
    use crate::requests::Mix;
    use crate::table::{hold, lookup, release};

    const EXAMPLE: [u8; 9] = [0x26, 0x04, 0x00, 0x00, 0x0a, 0x09, 0x00, 0x03, 0x00];

    /// The same list with a salt.
    const SALTED: [u8; 17] = [
        0x36, 0x04, 0x00, 0x00, 0xef, 0xcd, 0xab, 0x89, 0x67, 0x45, 0x23, 0x01, 0x0a, 0x09, 0x00,
        0x03, 0x00,
    ];
    const SOME_SALT: u64 = 0x0123_4567_89ab_cdef;

    /// What reading answers, where a refusal has to leave the table alone.
    fn answer(bytes: &[u8], cells: usize) -> Answer<Settings> {
        let mut table = vec![0x5a5a; cells];
        let answer = read(bytes, &mut table);
        assert!(answer.is_ok() || table.iter().all(|&cell| cell == 0x5a5a));
        answer
    }

    fn refusal(bytes: &[u8], cells: usize) -> u32 {
        answer(bytes, cells).unwrap_err()
    }

    #[test]
    fn example() {
        let settings = Settings::new(PLAIN, 4, 1, 0);
        let mut out = [0xee; 12];
        assert_eq!(write(settings, &[0, 9, 0, 3], &mut out), Ok(9));
        assert_eq!(out[..9], EXAMPLE);
        assert_eq!(out[9..], [0xee; 3]);
        let mut table = [7; 4];
        assert_eq!(read(&EXAMPLE, &mut table), Ok(settings));
        assert_eq!(table, [0, 9, 0, 3]);
    }

    #[test]
    fn example_with_a_salt() {
        let settings = Settings::new(PLAIN, 4, 1, 0).with_salt(SOME_SALT);
        let mut out = [0xee; 20];
        assert_eq!(write(settings, &[0, 9, 0, 3], &mut out), Ok(17));
        assert_eq!(out[..17], SALTED);
        assert_eq!(out[17..], [0xee; 3]);
        let mut table = [7; 4];
        assert_eq!(read(&SALTED, &mut table), Ok(settings));
        assert_eq!(table, [0, 9, 0, 3]);
        // All settings but the salt are the default.
        let mut table = [7; 4 * 4_096];
        let mut file = vec![0; 9 + 4_096];
        file[..9].copy_from_slice(&[0x30, 1, 2, 3, 4, 5, 6, 7, 8]);
        let default = DEFAULTS.with_salt(0x0807_0605_0403_0201);
        assert_eq!(read(&file, &mut table), Ok(default));
    }

    #[test]
    fn empty_list_of_the_default_settings() {
        let mut file = vec![0; 1 + 4_096];
        file[0] = 0x20;
        let mut table = vec![7; 4 * 4_096];
        assert_eq!(read(&file, &mut table), Ok(DEFAULTS));
        assert!(table.iter().all(|&cell| cell == 0));
        let mut out = vec![0xee; file.len()];
        assert_eq!(write(DEFAULTS, &table, &mut out), Ok(file.len()));
        assert_eq!(out, file);
    }

    #[test]
    fn marks() {
        for map in 0..16u8 {
            assert_eq!(marked(map), map.count_ones() as usize);
        }
    }

    #[test]
    fn heads() {
        let head = |rule, width, buckets, mask| {
            Head::of(Settings::new(rule, width, buckets, mask))
                .as_slice()
                .to_vec()
        };
        assert_eq!(head(PLAIN, 12, 4_096, 0), [0x20]);
        assert_eq!(head(RING, 12, 4_096, 0), [0x21, 1]);
        assert_eq!(head(PLAIN, 16, 4_096, 0), [0x22, 16]);
        assert_eq!(head(PLAIN, 12, 65_536, 0), [0x24, 0xff, 0xff]);
        assert_eq!(head(MASKED, 12, 4_096, 1), [0x29, 2, 1, 0]);
        assert_eq!(head(MASKED, 5, 4, 2), [0x2f, 2, 5, 3, 0, 2, 0]);
        assert_eq!(
            head(MASKED, 4, 1_024, 0x155),
            [0x2f, 2, 4, 0xff, 3, 0x55, 0x01]
        );
    }

    /// The salt comes after all other fields, the mask too, its low byte first.
    #[test]
    fn heads_with_a_salt() {
        let head =
            |settings: Settings, salt| Head::of(settings.with_salt(salt)).as_slice().to_vec();
        let masked = Settings::new(MASKED, 4, 1_024, 0x155);
        assert_eq!(
            head(masked, SOME_SALT),
            [0x3f, 2, 4, 0xff, 3, 0x55, 0x01, 0xef, 0xcd, 0xab, 0x89, 0x67, 0x45, 0x23, 0x01]
        );
        assert_eq!(head(DEFAULTS, 1), [0x30, 1, 0, 0, 0, 0, 0, 0, 0]);
        assert_eq!(head(DEFAULTS, 1 << 63), [0x30, 0, 0, 0, 0, 0, 0, 0, 0x80]);
        assert_eq!(head(DEFAULTS, 1 << 32), [0x30, 0, 0, 0, 0, 1, 0, 0, 0]);
        assert_eq!(head(DEFAULTS, u64::MAX)[1..], [0xff; 8]);
        assert_eq!(head(DEFAULTS, 0), [0x20]);
        assert_eq!(head(masked, 0), [0x2f, 2, 4, 0xff, 3, 0x55, 0x01]);
        assert_eq!(head(masked, 1).len(), HEAD);
    }

    #[test]
    fn round_trips() {
        let mut mix = Mix(11);
        for settings in [
            Settings::new(PLAIN, 12, 4_096, 0),
            Settings::new(PLAIN, 16, 1, 0),
            Settings::new(PLAIN, 4, 65_536, 0),
            Settings::new(RING, 12, 6, 0),
            Settings::new(RING, 16, 65_534, 0),
            Settings::new(MASKED, 12, 4_096, 1),
            Settings::new(MASKED, 7, 65_536, 65_534),
            Settings::new(MASKED, 4, 4, 2),
            DEFAULTS.with_salt(1),
            Settings::new(RING, 5, 6, 0).with_salt(u64::MAX),
            Settings::new(MASKED, 9, 16, 12).with_salt(SOME_SALT),
        ] {
            for empty in [0, 1, 2, 5, 100] {
                let below = 1 << settings.width;
                let table: Vec<u16> = (0..4 * settings.buckets)
                    .map(|_| match mix.below(4) < empty {
                        true => 0,
                        false => mix.below(below) as u16,
                    })
                    .collect();
                let filled = table.iter().filter(|&&cell| cell != 0).count();
                let mut out = mix.bytes(HEAD + 9 * settings.buckets as usize + 1);
                let before = out.clone();
                let length = write(settings, &table, &mut out).unwrap();
                let head = Head::of(settings).length;
                assert_eq!(length, head + settings.buckets as usize + 2 * filled);
                assert_eq!(file_length(settings, &table), Ok(length));
                assert_eq!(out[length..], before[length..]);
                let mut back = vec![0xffff; table.len()];
                assert_eq!(read(&out[..length], &mut back), Ok(settings));
                assert_eq!(back, table);
                // Just enough room, and one byte too little.
                let mut exact = vec![0; length];
                assert_eq!(write(settings, &table, &mut exact), Ok(length));
                assert_eq!(exact, out[..length]);
                let mut short = before[1..length].to_vec();
                assert_eq!(write(settings, &table, &mut short), Err(16));
                assert_eq!(short, before[1..length]);
            }
        }
    }

    #[test]
    fn writer_refuses_in_order() {
        let refused = |settings: Settings, cells: usize, cell: u16, room: usize| {
            let mut out = vec![0xee; room];
            let table = vec![cell; cells];
            let answer = write(settings, &table, &mut out);
            assert!(out.iter().all(|&byte| byte == 0xee));
            let number = answer.unwrap_err();
            // The room has no part in the length, and all else is checked as it is here.
            let length = file_length(settings, &table);
            match number {
                16 => assert!(length.unwrap() > room),
                _ => assert_eq!(length, Err(number)),
            }
            number
        };
        assert_eq!(refused(Settings::new(3, 3, 3, 3), 3, 99, 0), 1);
        assert_eq!(refused(Settings::new(PLAIN, 17, 3, 3), 3, 99, 0), 2);
        assert_eq!(refused(Settings::new(PLAIN, 4, 3, 3), 3, 99, 0), 3);
        assert_eq!(refused(Settings::new(PLAIN, 4, 2, 3), 3, 99, 0), 4);
        assert_eq!(refused(Settings::new(MASKED, 4, 2, 1), 3, 99, 0), 4);
        assert_eq!(refused(Settings::new(MASKED, 4, 4, 0), 16, 1, 99), 4);
        assert_eq!(refused(Settings::new(PLAIN, 4, 2, 0), 7, 99, 0), 5);
        assert_eq!(refused(Settings::new(PLAIN, 4, 2, 0), 9, 99, 0), 5);
        assert_eq!(refused(Settings::new(PLAIN, 4, 2, 0), 8, 16, 0), 17);
        assert_eq!(refused(Settings::new(PLAIN, 15, 2, 0), 8, 1 << 15, 99), 17);
        assert_eq!(refused(Settings::new(PLAIN, 4, 2, 0), 8, 15, 21), 16);
        assert_eq!(refused(Settings::new(PLAIN, 16, 2, 0), 8, 0xffff, 0), 16);
    }

    #[test]
    fn known_lengths() {
        let example = Settings::new(PLAIN, 4, 1, 0);
        assert_eq!(file_length(example, &[0, 9, 0, 3]), Ok(EXAMPLE.len()));
        let salted = example.with_salt(SOME_SALT);
        assert_eq!(file_length(salted, &[0, 9, 0, 3]), Ok(SALTED.len()));
        // The least of every head, and the most of all.
        let mut table = vec![0; 4 * 4_096];
        assert_eq!(file_length(DEFAULTS, &table), Ok(1 + 4_096));
        table[16_383] = 4_095;
        assert_eq!(file_length(DEFAULTS, &table), Ok(1 + 4_096 + 2));
        table[0] = 4_096;
        assert_eq!(file_length(DEFAULTS, &table), Err(17));
        let most = Settings::new(MASKED, 16, 65_536, 1).with_salt(1);
        let length = HEAD + 9 * 65_536;
        assert_eq!(file_length(most, &vec![0xffff; 4 * 65_536]), Ok(length));
    }

    /// Tables of any cells, good and bad, of any length: what the writer answers with room enough.
    #[test]
    fn lengths_are_what_the_writer_answers() {
        let mut mix = Mix(17);
        let (mut maps, mut seen) = (std::collections::HashSet::new(), [0; 18]);
        for _ in 0..40_000 {
            let width = [12, 4 + mix.below(13)][mix.below(2) as usize];
            let salt = u64::from(mix.below(2)) << mix.below(64);
            let (rule, buckets, mask) = match mix.below(7) {
                0 => (PLAIN, 1 << mix.below(5), 0),
                1 | 2 => (RING, 2 + 2 * mix.below(12), 0),
                3 | 4 => (MASKED, 8, 1 + mix.below(6)),
                // Now and then those for which the bucket count has no field, or some fault.
                5 if mix.below(40) == 0 => {
                    let rule = mix.below(3);
                    (rule, 4_096, u32::from(rule == MASKED))
                }
                _ => (mix.below(4), mix.below(10), mix.below(2)),
            };
            let settings = Settings::new(rule, width, buckets, mask).with_salt(salt);
            let good = 4 * buckets as usize;
            let cells = match mix.below(12) {
                0 => mix.below(good as u64 + 5) as usize,
                _ => good,
            };
            let (empty, wide) = (mix.below(101), mix.below(3) == 0);
            let mut table: Vec<u16> = (0..cells)
                .map(|_| match mix.below(100) < empty {
                    true => 0,
                    false => mix.below(1 << width) as u16,
                })
                .collect();
            if wide && cells > 0 {
                table[mix.below(cells as u64) as usize] = mix.draw() as u16;
            }
            let length = file_length(settings, &table);
            let mut out = vec![0; HEAD + 9 * buckets as usize];
            assert_eq!(length, write(settings, &table, &mut out), "{settings:?}");
            match length {
                Ok(length) => {
                    maps.insert(out[0]);
                    assert_eq!(write(settings, &table, &mut out[..length]), Ok(length));
                    let short = write(settings, &table, &mut out[..length - 1]);
                    assert_eq!(short, Err(16), "{settings:?}");
                }
                Err(number) => seen[number as usize] += 1,
            }
        }
        // Each rule with any of width, bucket count and salt.
        assert_eq!(maps.len(), 3 * 8, "{maps:?}");
        for number in [1, 3, 4, 5, 17] {
            assert!(seen[number] > 100, "{seen:?}");
        }
    }

    #[test]
    fn prefixes_end_early() {
        for length in 0..EXAMPLE.len() {
            assert_eq!(refusal(&EXAMPLE[..length], 4), 11, "{length}");
        }
        let all = [
            0x2f, 2, 4, 3, 0, 2, 0, 1, 7, 0, 0, 0, 15, 1, 0, 2, 0, 3, 0, 4,
        ];
        for length in 0..all.len() {
            assert_eq!(refusal(&all[..length], 16), 11, "{length}");
        }
        assert_eq!(refusal(&all, 16), 11);
        let whole = [&all[..], &[0]].concat();
        assert_eq!(answer(&whole, 16), Ok(Settings::new(MASKED, 4, 4, 2)));
        for length in 0..SALTED.len() {
            assert_eq!(refusal(&SALTED[..length], 4), 11, "{length}");
        }
    }

    #[test]
    fn each_refusal() {
        let with = |at: usize, byte: u8| {
            let mut bytes = EXAMPLE;
            bytes[at] = byte;
            refusal(&bytes, 4)
        };
        // A high bit of the map; a default that is there; bit 3 where it should not be, or not
        // there where it should.
        assert_eq!(with(0, 0x66), 12);
        assert_eq!(with(0, 0xa6), 12);
        assert_eq!(with(0, 0x46), 12);
        assert_eq!(with(0, 0x86), 12);
        assert_eq!(with(1, 12), 12);
        assert_eq!(refusal(&[0x21, 0x00], 4), 12);
        assert_eq!(refusal(&[0x24, 0xff, 0x0f], 4), 12);
        assert_eq!(refusal(&[0x28, 0x00, 0x00], 4), 12);
        assert_eq!(refusal(&[0x21, 0x02], 4), 12);
        assert_eq!(refusal(&[0x29, 0x01, 0x00, 0x00], 4), 12);
        // A salt of 0, which is its default; of 1 it is one.
        let mut salt = SALTED;
        salt[4..12].fill(0);
        assert_eq!(refusal(&salt, 4), 12);
        salt[11] = 1;
        let settings = Settings::new(PLAIN, 4, 1, 0).with_salt(1 << 56);
        assert_eq!(answer(&salt, 4), Ok(settings));
        // Some of the cells were taken for a salt, and the others end it early.
        assert_eq!(with(0, 0x36), 11);
        // The settings.
        assert_eq!(refusal(&[0x21, 0x03], 4), 1);
        assert_eq!(with(1, 3), 2);
        assert_eq!(with(1, 17), 2);
        assert_eq!(with(2, 2), 3);
        assert_eq!(refusal(&[0x2d, 0x02, 0x00, 0x00, 0x01, 0x00], 4), 4);
        // A mask that does no work.
        for (last, mask) in [(0, 0), (1, 0), (1, 1), (3, 0), (3, 3), (7, 7)] {
            let bytes = [&[0x2d, 2, last, 0, mask, 0][..], &[0; 8][..=last.into()]].concat();
            assert_eq!(refusal(&bytes, 4 * (usize::from(last) + 1)), 4);
        }
        // The table.
        assert_eq!(refusal(&EXAMPLE, 3), 5);
        assert_eq!(refusal(&EXAMPLE, 5), 5);
        assert_eq!(refusal(&EXAMPLE, 0), 5);
        // The buckets.
        assert_eq!(with(4, 0x1a), 13);
        assert_eq!(with(4, 0x80), 13);
        assert_eq!(with(5, 0), 14);
        assert_eq!(with(5, 16), 14);
        assert_eq!(with(6, 1), 14);
        assert_eq!(with(7, 0), 14);
        assert_eq!(with(8, 0x80), 14);
        // What follows them.
        assert_eq!(refusal(&[&EXAMPLE[..], &[0]].concat(), 4), 15);
        assert_eq!(with(4, 0x02), 15);
        assert_eq!(with(4, 0x00), 15);
        assert_eq!(with(4, 0x0b), 11);
    }

    /// Without bit 5 it is a file of earlier fingerprints: 23, whatever follows the map, and also where
    /// nothing does. Bits 6 and 7 come before it.
    #[test]
    fn earlier_files() {
        let mut mix = Mix(12);
        for map in 0..=u8::MAX {
            let number = match map {
                0x40.. => 12,
                0x20.. => continue,
                _ => 23,
            };
            assert_eq!(refusal(&[map], 0), number);
            for length in 0..20 {
                let bytes = [&[map][..], &mix.bytes(length)].concat();
                assert_eq!(refusal(&bytes, 4), number, "{bytes:?}");
            }
            // Fields with their defaults, a mask against the rule, settings that are refused.
            for fields in [[0; 14], [12; 14], [0xff; 14]] {
                assert_eq!(refusal(&[&[map][..], &fields].concat(), 4), number);
            }
        }
        // Files that were good, and into a table of another size too.
        let default = vec![0; 1 + 4_096];
        for cells in [0, 4, 4 * 4_096] {
            assert_eq!(refusal(&default, cells), 23);
            for file in [&EXAMPLE[..], &SALTED] {
                let mut earlier = file.to_vec();
                earlier[0] ^= EVEN;
                for length in 1..=earlier.len() {
                    assert_eq!(refusal(&earlier[..length], cells), 23);
                }
            }
        }
    }

    #[test]
    fn several_faults() {
        // The high bits before the mark of the fingerprints, and that before the fields that are not
        // there.
        assert_eq!(refusal(&[0x40], 0), 12);
        assert_eq!(refusal(&[0x7f], 0), 12);
        assert_eq!(refusal(&[0xc0, 0, 0], 0), 12);
        assert_eq!(refusal(&[0x1f], 0), 23);
        assert_eq!(refusal(&[0x3f], 0), 11);
        // The end of a field before what those ahead of it say.
        assert_eq!(refusal(&[0x23, 0x00], 0), 11);
        assert_eq!(refusal(&[0x27, 0x07, 0x0c, 0xff], 0), 11);
        assert_eq!(refusal(&[0x2f, 0x07, 0x11, 0xff, 0x0f, 0x00], 0), 11);
        assert_eq!(refusal(&[0x33, 0x07, 0x0c, 0, 0, 0, 0, 0, 0, 0], 0), 11);
        // The other causes of 12 before the settings.
        assert_eq!(refusal(&[0x23, 0x07, 0x0c], 0), 12);
        assert_eq!(refusal(&[0x29, 0x07, 0x00, 0x00], 0), 12);
        assert_eq!(refusal(&[0x26, 0x11, 0xff, 0x0f], 0), 12);
        assert_eq!(refusal(&[0x33, 0x07, 0x11, 0, 0, 0, 0, 0, 0, 0, 0], 0), 12);
        assert_eq!(refusal(&[0x33, 0x07, 0x11, 1, 0, 0, 0, 0, 0, 0, 0], 0), 1);
        // The settings in their order, before the table.
        assert_eq!(refusal(&[0x27, 0x07, 0x11, 0x02, 0x00], 0), 1);
        assert_eq!(refusal(&[0x26, 0x11, 0x02, 0x00], 0), 2);
        assert_eq!(refusal(&[0x2d, 0x02, 0x02, 0x00, 0x09, 0x00], 0), 3);
        assert_eq!(refusal(&[0x2d, 0x02, 0x01, 0x00, 0x09, 0x00], 0), 4);
        assert_eq!(refusal(&[0x2d, 0x02, 0x02, 0x00, 0x02, 0x00], 0), 3);
        assert_eq!(refusal(&[0x2d, 0x02, 0x03, 0x00, 0x03, 0x00], 0), 4);
        assert_eq!(refusal(&[0x29, 0x02, 0x00, 0x00, 0xff], 0), 4);
        // The table before the buckets.
        assert_eq!(refusal(&[0x26, 0x04, 0x00, 0x00], 5), 5);
        assert_eq!(refusal(&[0x26, 0x04, 0x00, 0x00, 0xff], 0), 5);
        // The buckets by their bytes.
        let buckets = |bytes: &[u8]| refusal(&[&[0x26, 4, 1, 0], bytes].concat(), 8);
        assert_eq!(buckets(&[0xff, 0, 0, 0xff]), 13);
        assert_eq!(buckets(&[0x01, 0, 0, 0xff]), 14);
        assert_eq!(buckets(&[0x03, 0, 0, 1]), 14);
        assert_eq!(buckets(&[0x03, 1, 0, 0]), 11);
        assert_eq!(buckets(&[0x03, 1, 0, 16]), 11);
        assert_eq!(buckets(&[0x0f, 1, 0, 16, 0]), 14);
        assert_eq!(buckets(&[0x00, 0x10, 1, 2, 3]), 13);
        assert_eq!(buckets(&[0x00, 0x01, 0, 0, 0]), 14);
        assert_eq!(buckets(&[0x00, 0x00, 0xff, 0xff]), 15);
        assert_eq!(buckets(&[0x01, 15, 0]), 11);
    }

    /// Cells and their file, under settings that passed the former check.
    fn former_list(mix: &mut Mix, s: Settings, empty: u32) -> (Vec<u16>, Vec<u8>) {
        let table: Vec<u16> = (0..4 * s.buckets)
            .map(|_| match mix.below(4) < empty {
                true => 0,
                false => mix.below(1 << s.width) as u16,
            })
            .collect();
        let mut file = vec![0; HEAD + 9 * s.buckets as usize];
        let length = former::write(s, &table, &mut file).unwrap();
        file.truncate(length);
        (table, file)
    }

    /// Settings whose mask does no work, with the default width and bucket count among them.
    fn former_settings() -> Vec<Settings> {
        let mut all = vec![];
        for width in [4, 12, 16] {
            for buckets in [1, 2, 4, 16, 4_096, 65_536] {
                for mask in [0, buckets - 1] {
                    for salt in [0, 1, SOME_SALT] {
                        all.push(Settings::new(MASKED, width, buckets, mask).with_salt(salt));
                    }
                }
            }
        }
        all
    }

    /// What converting is refused with, where a refusal has to leave the output alone.
    fn not_converted(bytes: &[u8], room: usize) -> u32 {
        let mut out = vec![0xee; room];
        let answer = convert(bytes, &mut out);
        assert!(out.iter().all(|&byte| byte == 0xee));
        answer.unwrap_err()
    }

    /// Four buckets of width 4 under the mask 3, of which the second is empty.
    const FORMER: [u8; 21] = [
        0x2f, 2, 4, 3, 0, 3, 0, 0x0a, 9, 0, 3, 0, 0x00, 0x01, 15, 0, 0x0c, 1, 0, 2, 0,
    ];

    #[test]
    fn converted_example() {
        let plain = [
            0x26, 4, 3, 0, 0x0a, 9, 0, 3, 0, 0x00, 0x01, 15, 0, 0x0c, 1, 0, 2, 0,
        ];
        let mut out = [0xee; 24];
        assert_eq!(convert(&FORMER, &mut out), Ok(18));
        assert_eq!(out[..18], plain);
        assert_eq!(out[18..], [0xee; 6]);
        let mut table = [7; 16];
        let settings = Settings::new(PLAIN, 4, 4, 0);
        assert_eq!(read(&out[..18], &mut table), Ok(settings));
        let cells = [0, 9, 0, 3, 0, 0, 0, 0, 15, 0, 0, 0, 0, 0, 1, 2];
        assert_eq!(table, cells);
        // The reader refuses what was converted.
        assert_eq!(refusal(&FORMER, 16), 4);
        // One bucket, the default width, a salt.
        let former = [
            0x3d, 2, 0, 0, 0, 0, 0xef, 0xcd, 0xab, 0x89, 0x67, 0x45, 0x23, 0x01, 0x08, 0xff, 0x0f,
        ];
        let plain = [
            0x34, 0, 0, 0xef, 0xcd, 0xab, 0x89, 0x67, 0x45, 0x23, 0x01, 0x08, 0xff, 0x0f,
        ];
        let mut out = [0xee; 14];
        assert_eq!(convert(&former, &mut out), Ok(14));
        assert_eq!(out, plain);
        // The default width and bucket count: all that is left is the map.
        for mask in [[0, 0], [0xff, 0x0f]] {
            let former = [&[0x29, 2][..], &mask, &[0; 4_096]].concat();
            let mut out = vec![0xee; 4_098];
            assert_eq!(convert(&former, &mut out), Ok(4_097));
            assert_eq!((out[0], out[4_097]), (0x20, 0xee));
            assert!(out[1..4_097].iter().all(|&byte| byte == 0));
        }
    }

    /// The rule and the mask go, with their bits, and every other byte stays; the plain writer makes
    /// the same file.
    #[test]
    fn converted_files() {
        let mut mix = Mix(13);
        for s in former_settings() {
            let plain = Settings {
                rule: PLAIN,
                mask: 0,
                ..s
            };
            for empty in [0, 2, 100] {
                let (table, file) = former_list(&mut mix, s, empty);
                let mut left = file.clone();
                left[0] ^= RULE | MASK;
                let mask = 2 + usize::from(s.width != 12) + 2 * usize::from(s.buckets != 4_096);
                left.drain(mask..mask + 2);
                left.remove(1);
                let n = left.len();
                let mut out = mix.bytes(file.len() + 3);
                let before = out.clone();
                assert_eq!(convert(&file, &mut out), Ok(n), "{s:?}");
                assert!(out[..n] == left && out[n..] == before[n..]);
                let mut written = vec![0; n];
                assert_eq!(write(plain, &table, &mut written), Ok(n));
                assert_eq!(written, left);
                let mut back = vec![0xffff; table.len()];
                assert_eq!(read(&left, &mut back), Ok(plain));
                assert_eq!(back, table);
                // Just enough room, and too little.
                let mut exact = vec![0; n];
                assert_eq!(convert(&file, &mut exact), Ok(n));
                assert_eq!(exact, left);
                for room in [0, 1, n - 1] {
                    assert_eq!(not_converted(&file, room), 16);
                }
                // What came of it is no such file, and the reader has none of the first.
                assert_eq!(not_converted(&left, n), 24);
                assert_eq!(refusal(&file, table.len()), 4);
            }
        }
    }

    /// What is wrong with the file comes before its rule and mask, and those before the room.
    #[test]
    fn converter_refuses_in_order() {
        let room = FORMER.len();
        let with = |at: usize, byte: u8| {
            let mut bytes = FORMER;
            bytes[at] = byte;
            assert_eq!(not_converted(&bytes, 0), not_converted(&bytes, room));
            not_converted(&bytes, 0)
        };
        for length in 0..FORMER.len() {
            assert_eq!(not_converted(&FORMER[..length], 0), 11, "{length}");
            assert_eq!(not_converted(&FORMER[..length], room), 11, "{length}");
        }
        // The map, and the marks of the fields.
        assert_eq!(with(0, 0x6f), 12);
        assert_eq!(with(0, 0x4f), 12);
        assert_eq!(with(0, 0x8f), 12);
        assert_eq!(with(0, 0x0f), 23);
        assert_eq!(not_converted(&[0x0f], 0), 23);
        assert_eq!(not_converted(&[0x2f, 2, 12, 3, 0, 0], 0), 11);
        assert_eq!(with(1, 0), 12);
        assert_eq!(with(1, 1), 12);
        assert_eq!(with(1, 3), 12);
        assert_eq!(with(2, 12), 12);
        assert_eq!(not_converted(&[0x2d, 2, 0xff, 0x0f, 0, 0], 0), 12);
        assert_eq!(
            not_converted(&[0x39, 2, 0, 0, 0, 0, 0, 0, 0, 0, 0, 0], 0),
            12
        );
        assert_eq!(not_converted(&[0x21, 2], 0), 12);
        // The settings, before the buckets.
        assert_eq!(not_converted(&[0x27, 3, 17, 2, 0], 0), 1);
        assert_eq!(with(2, 17), 2);
        assert_eq!(with(2, 3), 2);
        assert_eq!(with(3, 2), 3);
        assert_eq!(with(3, 4), 3);
        assert_eq!(with(5, 4), 4);
        assert_eq!(with(6, 1), 4);
        assert_eq!(with(3, 1), 4);
        assert_eq!(not_converted(&[0x2d, 2, 0, 0, 1, 0, 0xff], 0), 4);
        assert_eq!(not_converted(&[0x2d, 2, 1, 0, 2, 0], 0), 4);
        assert_eq!(not_converted(&[0x29, 2, 0, 0x10], 0), 4);
        // The buckets by their bytes.
        assert_eq!(with(7, 0x1a), 13);
        assert_eq!(with(16, 0x1c), 13);
        assert_eq!(with(8, 0), 14);
        assert_eq!(with(8, 16), 14);
        assert_eq!(with(20, 1), 14);
        assert_eq!(with(16, 0x0e), 11);
        assert_eq!(with(16, 0x04), 15);
        assert_eq!(not_converted(&[&FORMER[..], &[0]].concat(), 0), 15);
        assert_eq!(not_converted(&[&FORMER[..], &[0xff]].concat(), 99), 15);
        // Masks that work, and then the room.
        assert_eq!(with(5, 1), 24);
        assert_eq!(with(5, 2), 24);
        for length in 0..18 {
            assert_eq!(not_converted(&FORMER, length), 16, "{length}");
        }
    }

    /// A good file of another rule or mask: 24, with room or with none. A fault comes before that.
    #[test]
    fn other_files_are_not_converted() {
        let mut mix = Mix(14);
        for s in [
            Settings::new(PLAIN, 12, 4_096, 0),
            Settings::new(PLAIN, 4, 1, 0),
            Settings::new(PLAIN, 12, 2, 0).with_salt(SOME_SALT),
            Settings::new(RING, 12, 2, 0),
            Settings::new(RING, 16, 6, 0).with_salt(1),
            Settings::new(MASKED, 12, 4, 1),
            Settings::new(MASKED, 12, 4, 2),
            Settings::new(MASKED, 5, 16, 1).with_salt(SOME_SALT),
            Settings::new(MASKED, 5, 16, 14),
            Settings::new(MASKED, 12, 4_096, 1),
            Settings::new(MASKED, 12, 4_096, 4_094),
            Settings::new(MASKED, 12, 65_536, 65_534),
        ] {
            let (table, file) = former_list(&mut mix, s, 2);
            assert_eq!(read(&file, &mut vec![0; table.len()]), Ok(s));
            for room in [0, 1, file.len() - 1, file.len(), file.len() + 1] {
                assert_eq!(not_converted(&file, room), 24, "{s:?}");
            }
            let longer = [&file[..], &[0]].concat();
            assert_eq!(not_converted(&longer, longer.len()), 15);
            let shorter = &file[..file.len() - 1];
            assert_eq!(not_converted(shorter, file.len()), 11);
            let mut map = file.clone();
            let first = Head::of(s).length;
            map[first] |= 0x10;
            assert_eq!(not_converted(&map, 0), 13);
        }
    }

    /// A list goes on after it is converted as it would have: every tag has the same number, every
    /// hold the same moves or refusal, and every cell stays the same.
    #[test]
    fn converted_lists_go_on() {
        let mut mix = Mix(15);
        let (mut held, mut moved, mut full) = (0, 0, 0);
        for s in former_settings() {
            if s.buckets > 16 && (s.width != 12 || s.salt == 1) {
                continue;
            }
            let words = 2 * s.buckets as usize;
            let mut former_scratch: Vec<u32> = (0..words).map(|_| mix.draw() as u32).collect();
            let mut scratch = vec![0; words];
            let mut former_table = vec![0; 4 * s.buckets as usize];
            // To about nine tenths, where holds start to move others.
            for _ in 0..former_table.len() * 9 / 10 {
                let tag = mix.bytes(5);
                let _ = former::hold(s, &mut former_table, &mut former_scratch, &tag);
            }
            let mut file = vec![0; HEAD + 9 * s.buckets as usize];
            let length = former::write(s, &former_table, &mut file).unwrap();
            let mut out = vec![0; length];
            let length = convert(&file[..length], &mut out).unwrap();
            let mut table = vec![0; former_table.len()];
            let plain = read(&out[..length], &mut table).unwrap();
            assert!(table == former_table, "{s:?}");
            // Few kinds of tags, so that some are held more than once.
            let kinds = u64::from(3 * s.buckets.min(100));
            for step in 0..4 * kinds {
                let mut tag = || mix.below(kinds).to_le_bytes();
                let (one, other) = (tag(), tag());
                let copies = lookup(plain, &table, &one);
                assert_eq!(copies, former::lookup(s, &former_table, &one), "{s:?}");
                let answer = hold(plain, &mut table, &mut scratch, &one);
                let former = former::hold(s, &mut former_table, &mut former_scratch, &one);
                assert_eq!(answer, former, "{s:?}");
                held += u32::from(matches!(copies, Ok(2..)));
                moved += u32::from(matches!(answer, Ok(1..)));
                full += u32::from(answer == Err(9));
                if step % 3 == 0 {
                    let answer = release(plain, &mut table, &other);
                    let former = former::release(s, &mut former_table, &other);
                    assert_eq!(answer, former, "{s:?}");
                }
                assert!(s.buckets > 16 || table == former_table, "{s:?}");
            }
            assert!(table == former_table, "{s:?}");
        }
        for count in [held, moved, full] {
            assert!(count > 300, "{held} {moved} {full}");
        }
    }

    /// Every class: the copies that a lookup under the former candidates finds, bucket by bucket,
    /// are those of a lookup in the plain list, in tables of any cells.
    #[test]
    fn copies_in_converted_tables() {
        let mut mix = Mix(16);
        let mut found = 0;
        for s in former_settings() {
            if s.buckets > 16 {
                continue;
            }
            for _ in 0..60 {
                let tag = mix.bytes(3);
                let (fingerprint, home) = s.entry_unchecked(&tag).unwrap();
                let former = s.candidates_unchecked(fingerprint, home);
                let table: Vec<u16> = (0..4 * s.buckets)
                    .map(|_| mix.below(2) as u16 * fingerprint)
                    .collect();
                let copies = (0..table.len())
                    .filter(|&i| former.as_slice().contains(&(i as u32 / 4)))
                    .filter(|&i| table[i] == fingerprint)
                    .count() as u32;
                let mut file = vec![0; HEAD + 9 * s.buckets as usize];
                let length = former::write(s, &table, &mut file).unwrap();
                let mut out = vec![0; length];
                let length = convert(&file[..length], &mut out).unwrap();
                let mut back = vec![0; table.len()];
                let plain = read(&out[..length], &mut back).unwrap();
                assert_eq!(lookup(plain, &back, &tag), Ok(copies), "{s:?}");
                found += copies;
            }
        }
        assert!(found > 5_000, "{found}");
    }
}
