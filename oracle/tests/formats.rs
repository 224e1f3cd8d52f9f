//! The hold file and the packed form held to readers and writers that follow the rules word for
//! word, byte by byte and bit by bit.

use oracle::index::{Answer, Settings, MASKED, PLAIN, RING};
use oracle::requests::Mix;
use oracle::{former, holdfile, packed};

/// A hold file, for settings and cells that are good.
fn file_of(s: Settings, table: &[u16]) -> Vec<u8> {
    // The mark of the fingerprints, which has no bytes.
    let mut map = 32;
    let mut fields = vec![];
    if s.rule != 0 {
        map += 1;
        fields.push(s.rule as u8);
    }
    if s.width != 12 {
        map += 2;
        fields.push(s.width as u8);
    }
    if s.buckets != 4_096 {
        map += 4;
        let count = s.buckets - 1;
        fields.extend([(count % 256) as u8, (count / 256) as u8]);
    }
    if s.rule == 2 {
        map += 8;
        fields.extend([(s.mask % 256) as u8, (s.mask / 256) as u8]);
    }
    if s.salt != 0 {
        map += 16;
        let mut salt = s.salt;
        for _ in 0..8 {
            fields.push((salt % 256) as u8);
            salt /= 256;
        }
    }
    let mut bytes = vec![map];
    bytes.append(&mut fields);
    for cells in table.chunks(4) {
        let filled: Vec<usize> = (0..4).filter(|&i| cells[i] != 0).collect();
        bytes.push(filled.iter().map(|&i| 1 << i).sum());
        for i in filled {
            bytes.extend([(cells[i] % 256) as u8, (cells[i] / 256) as u8]);
        }
    }
    bytes
}

/// Bytes that are taken one by one.
struct Bytes<'a>(std::slice::Iter<'a, u8>);

impl Bytes<'_> {
    fn one(&mut self) -> Answer<u32> {
        self.0.next().map(|&byte| u32::from(byte)).ok_or(11)
    }

    fn two(&mut self) -> Answer<u32> {
        Ok(self.one()? + 256 * self.one()?)
    }

    fn eight(&mut self) -> Answer<u64> {
        let mut number = 0;
        for i in 0..8 {
            number += u64::from(self.one()?) << (8 * i);
        }
        Ok(number)
    }
}

/// What a reader makes of a file that is lent so many cells, and one that takes the former settings
/// and is lent none.
fn settings_and_cells(bytes: &[u8], lent: Option<usize>) -> Answer<(Settings, Vec<u16>)> {
    let mut bytes = Bytes(bytes.iter());
    let map = bytes.one()?;
    if map > 63 {
        return Err(12);
    }
    if map < 32 {
        return Err(23);
    }
    let bits = [0, 1, 2, 3, 4].map(|i| map >> i & 1 == 1);
    let mut s = Settings::new(0, 12, 4_096, 0);
    if bits[0] {
        s.rule = bytes.one()?;
    }
    if bits[1] {
        s.width = bytes.one()?;
    }
    if bits[2] {
        s.buckets = bytes.two()? + 1;
    }
    if bits[3] {
        s.mask = bytes.two()?;
    }
    if bits[4] {
        s.salt = bytes.eight()?;
    }
    if bits[0] && s.rule == 0 || bits[1] && s.width == 12 || bits[2] && s.buckets == 4_096 {
        return Err(12);
    }
    if bits[3] && s.rule != 2 || !bits[3] && s.rule == 2 {
        return Err(12);
    }
    if bits[4] && s.salt == 0 {
        return Err(12);
    }
    match lent {
        Some(cells) => {
            s.check()?;
            if cells as u64 != 4 * u64::from(s.buckets) {
                return Err(5);
            }
        }
        None => s.former_check()?,
    }
    let mut table = vec![];
    for _ in 0..s.buckets {
        let filled = bytes.one()?;
        if filled > 15 {
            return Err(13);
        }
        for i in 0..4 {
            if filled >> i & 1 == 0 {
                table.push(0);
                continue;
            }
            let print = bytes.two()?;
            if print == 0 || print >= 1 << s.width {
                return Err(14);
            }
            table.push(print as u16);
        }
    }
    if bytes.one().is_ok() {
        return Err(15);
    }
    Ok((s, table))
}

/// What a converter makes of a file that has so much room for it: the list under the plain rule.
fn converted(bytes: &[u8], room: usize) -> Answer<Vec<u8>> {
    let (s, table) = settings_and_cells(bytes, None)?;
    if s.rule != 2 || s.mask != 0 && s.mask != s.buckets - 1 {
        return Err(24);
    }
    let plain = Settings {
        rule: 0,
        mask: 0,
        ..s
    };
    Some(file_of(plain, &table))
        .filter(|file| file.len() <= room)
        .ok_or(16)
}

fn ascending(list: &[u16]) -> bool {
    list.windows(2).all(|two| two[0] <= two[1])
}

/// Every ascending quadruple of leads, in dictionary order.
fn rows() -> Vec<[u16; 4]> {
    let mut all = vec![];
    for n in 0..1u32 << 16 {
        let leads = [12, 8, 4, 0].map(|i| (n >> i & 15) as u16);
        if ascending(&leads) {
            all.push(leads);
        }
    }
    assert_eq!(all.len(), 3_876);
    all
}

fn push(bits: &mut Vec<bool>, number: usize, count: u32) {
    bits.extend((0..count).map(|i| number >> i & 1 == 1));
}

/// The packed form, for settings and cells that are good.
fn packed_of(s: Settings, table: &[u16], rows: &[[u16; 4]]) -> Vec<u8> {
    let mut bits = vec![];
    for cells in table.chunks(4) {
        let mut cells = cells.to_vec();
        cells.sort_unstable();
        let leads: Vec<u16> = cells.iter().map(|cell| cell >> (s.width - 4)).collect();
        let row = rows.iter().position(|row| row[..] == leads).unwrap();
        push(&mut bits, row, 12);
        for cell in cells {
            push(
                &mut bits,
                usize::from(cell % (1 << (s.width - 4))),
                s.width - 4,
            );
        }
    }
    bits.chunks(8)
        .map(|byte| byte.iter().rev().fold(0, |n, &bit| 2 * n + u8::from(bit)))
        .collect()
}

/// What a packed form of good length has to be read as.
fn buckets_of(s: Settings, bytes: &[u8], rows: &[[u16; 4]]) -> Answer<Vec<u16>> {
    let mut bits = bytes
        .iter()
        .flat_map(|byte| (0..8).map(move |i| byte >> i & 1 == 1));
    let mut number =
        |count: u32| (0..count).fold(0, |n, i| n + (usize::from(bits.next().unwrap()) << i));
    let mut table = vec![];
    for _ in 0..s.buckets {
        let row = rows.get(number(12)).ok_or(18u32)?;
        let cells = row.map(|lead| (lead << (s.width - 4)) + number(s.width - 4) as u16);
        if !ascending(&cells) {
            return Err(19);
        }
        table.extend(cells);
    }
    if bits.any(|bit| bit) {
        return Err(20);
    }
    Ok(table)
}

/// No salt, one of a single bit, or any.
fn salt(mix: &mut Mix) -> u64 {
    match mix.below(4) {
        0 | 1 => 0,
        2 => 1 << mix.below(64),
        _ => mix.draw(),
    }
}

fn settings(mix: &mut Mix) -> Settings {
    let width = 4 + mix.below(13);
    let s = match mix.below(3) {
        0 => Settings::new(PLAIN, width, 1 << mix.below(6), 0),
        1 => Settings::new(RING, width, 2 + 2 * mix.below(20), 0),
        _ => {
            let buckets = 4 << mix.below(4);
            Settings::new(MASKED, width, buckets, working_mask(mix, buckets))
        }
    };
    s.with_salt(salt(mix))
}

/// Any mask that does work for so many buckets.
fn working_mask(mix: &mut Mix, buckets: u32) -> u32 {
    1 + mix.below(u64::from(buckets) - 2)
}

/// Settings whose mask does no work.
fn former_settings(mix: &mut Mix) -> Settings {
    let buckets = 1 << mix.below(5);
    let mask = mix.below(2) * (buckets - 1);
    let width = if mix.below(4) == 0 {
        12
    } else {
        4 + mix.below(13)
    };
    Settings::new(MASKED, width, buckets, mask).with_salt(salt(mix))
}

fn cells(s: Settings, mix: &mut Mix) -> Vec<u16> {
    let empty = mix.below(5);
    // Few values make equal leads and equal cells.
    let values = match mix.below(3) {
        0 => 1 << s.width,
        1 => 3,
        _ => 1 << (s.width - 1),
    };
    (0..4 * s.buckets)
        .map(|_| match mix.below(4) < empty {
            true => 0,
            false => mix.below(values) as u16,
        })
        .collect()
}

/// Some bytes changed, added or taken away.
fn damage(bytes: &mut Vec<u8>, mix: &mut Mix) {
    for _ in 0..mix.below(3) {
        let n = bytes.len() as u64;
        match mix.below(8) {
            0 => bytes.truncate(mix.below(n + 1) as usize),
            1 => bytes.push(mix.draw() as u8),
            // The head of a file is short, and its faults are many.
            2 if n > 0 => bytes[mix.below(n.min(8)) as usize] = mix.below(66) as u8,
            3 if n > 0 => bytes[mix.below(n) as usize] ^= 1 << mix.below(8),
            _ if n > 0 => bytes[mix.below(n) as usize] = mix.draw() as u8,
            _ => {}
        }
    }
}

#[test]
fn files() {
    let mut mix = Mix(21);
    let mut seen = [0; 24];
    let mut salted = 0;
    for _ in 0..60_000 {
        let s = settings(&mut mix);
        let table = cells(s, &mut mix);
        let mut bytes = file_of(s, &table);
        let mut out = vec![0; bytes.len()];
        assert_eq!(holdfile::file_length(s, &table), Ok(bytes.len()));
        assert_eq!(holdfile::write(s, &table, &mut out), Ok(bytes.len()));
        assert_eq!(out, bytes);
        damage(&mut bytes, &mut mix);
        let lent = table.len() + usize::from(mix.below(50) == 0);
        let mut back = vec![0xabcd; lent];
        let answer = holdfile::read(&bytes, &mut back);
        match settings_and_cells(&bytes, Some(lent)) {
            Ok((s, table)) => {
                assert_eq!(answer, Ok(s));
                assert_eq!(back, table);
                seen[0] += 1;
                salted += u32::from(s.salt != 0);
            }
            Err(number) => {
                assert_eq!(answer, Err(number), "{bytes:?}");
                assert!(back.iter().all(|&cell| cell == 0xabcd));
                seen[number as usize] += 1;
            }
        }
    }
    for number in [0, 1, 2, 3, 4, 5, 11, 12, 13, 14, 15, 23] {
        assert!(seen[number] > 100, "{seen:?}");
    }
    assert!(salted > 1_000, "{salted}");
}

#[test]
fn converted_files() {
    let mut mix = Mix(34);
    let mut seen = [0; 25];
    for _ in 0..60_000 {
        let s = match mix.below(4) {
            0 => settings(&mut mix),
            _ => former_settings(&mut mix),
        };
        let table = cells(s, &mut mix);
        let mut bytes = file_of(s, &table);
        let mut out = vec![0; bytes.len()];
        assert_eq!(former::write(s, &table, &mut out), Ok(bytes.len()));
        assert_eq!(out, bytes);
        if mix.below(3) != 0 {
            damage(&mut bytes, &mut mix);
        }
        let room = match mix.below(4) {
            0 => mix.below(bytes.len() as u64 + 1) as usize,
            // One too little, just enough, one too much.
            n => (bytes.len() + n as usize).saturating_sub(5),
        };
        let before = mix.bytes(room);
        let mut out = before.clone();
        let answer = holdfile::convert(&bytes, &mut out);
        match converted(&bytes, room) {
            Ok(file) => {
                assert_eq!(answer, Ok(file.len()));
                assert_eq!(out[..file.len()], file);
                assert_eq!(out[file.len()..], before[file.len()..]);
                seen[0] += 1;
            }
            Err(number) => {
                assert_eq!(answer, Err(number), "{bytes:?}");
                assert_eq!(out, before);
                seen[number as usize] += 1;
            }
        }
    }
    for number in [0, 1, 2, 3, 4, 11, 12, 13, 14, 15, 16, 23, 24] {
        assert!(seen[number] > 20, "{seen:?}");
    }
    assert_eq!(seen[5], 0);
}

#[test]
fn packed_forms() {
    let rows = rows();
    let mut mix = Mix(22);
    let mut seen = [0; 24];
    for _ in 0..20_000 {
        let s = settings(&mut mix);
        let table = cells(s, &mut mix);
        let mut bytes = packed_of(s, &table, &rows);
        let mut out = vec![0; bytes.len()];
        assert_eq!(packed::write(s, &table, &mut out), Ok(bytes.len()));
        assert_eq!(out, bytes);
        damage(&mut bytes, &mut mix);
        let mut back = vec![0xabcd; table.len()];
        let answer = packed::read(s, &bytes, &mut back);
        let expected = match bytes.len() {
            n if n < out.len() => Err(11),
            n if n > out.len() => Err(15),
            _ => buckets_of(s, &bytes, &rows),
        };
        match expected {
            Ok(table) => {
                let filled = table.iter().filter(|&&cell| cell != 0).count();
                assert_eq!(answer, Ok(filled));
                assert_eq!(back, table);
                seen[0] += 1;
            }
            Err(number) => {
                assert_eq!(answer, Err(number), "{s:?} {bytes:?}");
                assert!(back.iter().all(|&cell| cell == 0xabcd));
                seen[number as usize] += 1;
            }
        }
    }
    for number in [0, 11, 15, 18, 19, 20] {
        assert!(seen[number] > 20, "{seen:?}");
    }
}

/// The packed form of a table is the same under every salt, and is read under every salt.
#[test]
fn packed_forms_have_no_salt() {
    let mut mix = Mix(30);
    for _ in 0..2_000 {
        let s = settings(&mut mix).with_salt(0);
        let table = cells(s, &mut mix);
        let mut plain = vec![0; 8 * s.buckets as usize];
        let length = packed::write(s, &table, &mut plain).unwrap();
        let mut back = table.clone();
        let filled = packed::read(s, &plain[..length], &mut back);
        for salt in [1, mix.draw()] {
            let salted = s.with_salt(salt);
            let mut out = vec![0; plain.len()];
            assert_eq!(packed::write(salted, &table, &mut out), Ok(length));
            assert_eq!(out, plain);
            let mut other = vec![0xabcd; table.len()];
            assert_eq!(packed::read(salted, &plain[..length], &mut other), filled);
            assert_eq!(other, back);
        }
    }
}

/// The fast and the branch-free forms held to the plain ones: every answer, and everything that was lent.
#[cfg(target_arch = "x86_64")]
mod fast_forms {
    use super::{cells, rows, salt, settings, working_mask};
    use oracle::fast;
    use oracle::index::{Answer, Settings, MASKED, PLAIN, RING};
    use oracle::requests::Mix;
    use oracle::{branch_free, holdfile, packed};

    /// How often each number was answered; 0 is for good calls.
    type Seen = [usize; 24];

    fn count<T>(seen: &mut Seen, answer: Answer<T>) {
        seen[answer.err().unwrap_or(0) as usize] += 1;
    }

    fn assert_seen(seen: &Seen, numbers: &[usize], least: usize) {
        for &number in numbers {
            assert!(seen[number] >= least, "{number}: {seen:?}");
        }
    }

    fn file_write(s: Settings, table: &[u16], out: &[u8], seen: &mut Seen) -> Vec<u8> {
        let mut plain = out.to_vec();
        let answer = holdfile::write(s, table, &mut plain);
        for write in [branch_free::write, fast::holdfile::write] {
            let mut other = out.to_vec();
            assert_eq!(write(&s, table, &mut other), answer, "{s:?}");
            assert!(other == plain, "{s:?} {answer:?}");
        }
        count(seen, answer);
        plain.truncate(answer.unwrap_or(0));
        plain
    }

    fn packed_write(s: Settings, table: &[u16], out: &[u8], seen: &mut Seen) -> Vec<u8> {
        let (mut plain, mut other) = (out.to_vec(), out.to_vec());
        let answer = packed::write(s, table, &mut plain);
        assert_eq!(fast::packed::write(&s, table, &mut other), answer, "{s:?}");
        assert!(other == plain, "{s:?} {answer:?}");
        count(seen, answer);
        plain.truncate(answer.unwrap_or(0));
        plain
    }

    fn file_read(bytes: &[u8], cells: usize, seen: &mut Seen) {
        let mut plain = vec![0xabcd; cells];
        let answer = holdfile::read(bytes, &mut plain);
        for read in [branch_free::read, fast::holdfile::read] {
            let mut other = vec![0xabcd; cells];
            assert_eq!(read(bytes, &mut other), answer);
            assert!(other == plain, "{answer:?}");
        }
        count(seen, answer);
    }

    fn packed_read(s: Settings, bytes: &[u8], cells: usize, seen: &mut Seen) {
        let (mut plain, mut other) = (vec![0xabcd; cells], vec![0xabcd; cells]);
        let answer = packed::read(s, bytes, &mut plain);
        assert_eq!(fast::packed::read(&s, bytes, &mut other), answer, "{s:?}");
        assert!(other == plain, "{s:?} {answer:?}");
        count(seen, answer);
    }

    /// Outputs without a byte, a byte too short, of the length, and longer, that held something.
    fn rooms(length: usize, mix: &mut Mix) -> Vec<Vec<u8>> {
        let some = mix.below(length as u64) as usize;
        let more = length + 1 + mix.below(40) as usize;
        [0, some, length - 1, length, length + 1, more]
            .map(|room| mix.bytes(room))
            .to_vec()
    }

    /// Bytes that were cut, changed in one place, or continued; the first are unchanged.
    fn damaged(bytes: &[u8], mix: &mut Mix, times: usize) -> Vec<Vec<u8>> {
        let n = bytes.len() as u64;
        let mut all = vec![bytes.to_vec()];
        for _ in 0..times {
            let cut = bytes[..mix.below(n) as usize].to_vec();
            let end = bytes[..bytes.len().saturating_sub(1 + mix.below(30) as usize)].to_vec();
            let mut bit = bytes.to_vec();
            bit[mix.below(n) as usize] ^= 1 << mix.below(8);
            let mut byte = bytes.to_vec();
            byte[mix.below(n) as usize] = mix.draw() as u8;
            let mut low = bytes.to_vec();
            low[mix.below(n) as usize] = mix.below(16) as u8;
            let mut late = bytes.to_vec();
            late[bytes.len() - 1 - mix.below(n.min(30)) as usize] = mix.draw() as u8;
            let mut ones = bytes.to_vec();
            let at = mix.below(n) as usize;
            ones[at..(at + 3).min(bytes.len())].fill(0xff);
            let longer = 1 + mix.below(30) as usize;
            let junk = [bytes, &mix.bytes(longer)].concat();
            let zeros = [bytes, &vec![0; longer]].concat();
            all.extend([cut, end, bit, byte, low, late, ones, junk, zeros]);
        }
        all
    }

    /// One table through the four calls, with everything that can be wrong.
    fn compare(s: Settings, table: &[u16], mix: &mut Mix, times: usize, seen: &mut [Seen; 4]) {
        let [file_out, file_in, packed_out, packed_in] = seen;
        let most = mix.bytes(holdfile::HEAD + 9 * s.buckets as usize);
        let file = file_write(s, table, &most, file_out);
        let form = packed_write(s, table, &most, packed_out);
        assert!(!file.is_empty() && !form.is_empty(), "{s:?}");
        for out in rooms(file.len(), mix) {
            file_write(s, table, &out, file_out);
        }
        for out in rooms(form.len(), mix) {
            packed_write(s, table, &out, packed_out);
        }
        if s.width < 16 {
            let mut wide = table.to_vec();
            wide[mix.below(table.len() as u64) as usize] |=
                1 << (s.width + mix.below(16 - u64::from(s.width)));
            file_write(s, &wide, &most, file_out);
            packed_write(s, &wide, &most, packed_out);
            file_write(s, &wide, &[], file_out);
            packed_write(s, &wide, &[], packed_out);
        }
        for bytes in damaged(&file, mix, times) {
            file_read(&bytes, table.len(), file_in);
        }
        for bytes in damaged(&form, mix, times) {
            packed_read(s, &bytes, table.len(), packed_in);
        }
        // Tables of a wrong length, and settings that are not good.
        for lent in [0, table.len() - 1, table.len() + 1] {
            let lent = vec![0; lent];
            file_write(s, &lent, &most, file_out);
            packed_write(s, &lent, &most, packed_out);
            file_read(&file, lent.len(), file_in);
            packed_read(s, &form, lent.len(), packed_in);
        }
        let masked = Settings { rule: MASKED, ..s };
        for bad in [
            Settings { rule: 3, ..s },
            Settings { width: 17, ..s },
            Settings { buckets: 0, ..s },
            Settings {
                mask: s.buckets,
                ..s
            },
            Settings {
                mask: s.buckets - 1,
                ..masked
            },
            Settings { mask: 0, ..masked },
        ] {
            file_write(bad, table, &most, file_out);
            packed_write(bad, table, &most, packed_out);
            packed_read(bad, &form, table.len(), packed_in);
        }
    }

    fn assert_all_seen([file_out, file_in, packed_out, packed_in]: &[Seen; 4], least: usize) {
        assert_seen(file_out, &[0, 1, 2, 3, 4, 5, 16, 17], least);
        assert_seen(packed_out, &[0, 1, 2, 3, 4, 5, 16, 17], least);
        assert_seen(file_in, &[0, 5, 11, 13, 14, 15], least);
        assert_seen(packed_in, &[0, 1, 2, 3, 4, 5, 11, 15, 18, 19], least);
    }

    #[test]
    fn small_tables() {
        let mut mix = Mix(23);
        let mut seen = [[0; 24]; 4];
        for _ in 0..4_000 {
            let s = settings(&mut mix);
            let table = cells(s, &mut mix);
            compare(s, &table, &mut mix, 2, &mut seen);
        }
        assert_all_seen(&seen, 500);
        // A filling bit, which only a table of one bucket has.
        assert_seen(&seen[3], &[20], 20);
    }

    #[test]
    fn each_width_and_bucket_count() {
        let mut mix = Mix(24);
        let mut seen = [[0; 24]; 4];
        for width in 4..=16 {
            for buckets in 1..=40 {
                let s = match buckets % 2 {
                    0 => Settings::new(RING, width, buckets, 0),
                    _ => Settings::new(PLAIN, width, buckets.next_power_of_two(), 0),
                };
                for empty in 0..=4 {
                    let table: Vec<u16> = (0..4 * s.buckets)
                        .map(|_| u16::from(mix.below(4) >= empty) * mix.below(1 << width) as u16)
                        .collect();
                    compare(s, &table, &mut mix, 1, &mut seen);
                }
            }
        }
        assert_all_seen(&seen, 300);
    }

    #[test]
    fn large_tables() {
        let mut mix = Mix(25);
        let mut seen = [[0; 24]; 4];
        for width in 4..=16 {
            for s in [
                Settings::new(PLAIN, width, 4_096, 0),
                Settings::new(RING, width, 1_022 + 2 * mix.below(2_000), 0),
                Settings::new(MASKED, width, 2_048, working_mask(&mut mix, 2_048)),
            ] {
                let s = s.with_salt(salt(&mut mix));
                // From a table that is full, or nearly so, to an empty one, in which a part of the
                // file has many more buckets than another.
                for load in [100, 95, 50, 3, 0] {
                    let uneven = mix.below(2) == 0;
                    let n = 4 * s.buckets;
                    let table: Vec<u16> = (0..n)
                        .map(|i| match (uneven && i > n / 3) || mix.below(100) >= load {
                            true => 0,
                            false => 1 + mix.below((1 << width) - 1) as u16,
                        })
                        .collect();
                    compare(s, &table, &mut mix, 4, &mut seen);
                }
            }
        }
        assert_all_seen(&seen, 100);
    }

    #[test]
    fn largest_tables() {
        let mut mix = Mix(26);
        let mut seen = [[0; 24]; 4];
        for s in [
            Settings::new(PLAIN, 16, 65_536, 0),
            Settings::new(PLAIN, 12, 65_536, 0),
            Settings::new(RING, 13, 65_534, 0),
            Settings::new(MASKED, 4, 65_536, 0xff),
            Settings::new(MASKED, 11, 65_536, 0xff).with_salt(u64::MAX),
        ] {
            for load in [100, 50, 0] {
                let table: Vec<u16> = (0..4 * s.buckets)
                    .map(|_| match mix.below(100) >= load {
                        true => 0,
                        false => 1 + mix.below((1 << s.width) - 1) as u16,
                    })
                    .collect();
                compare(s, &table, &mut mix, 1, &mut seen);
            }
        }
        for seen in seen {
            assert!(seen[0] > 0);
        }
    }

    /// Files in which a walk that starts beside the buckets stays beside them.
    #[test]
    fn walks_that_do_not_meet() {
        let mut mix = Mix(27);
        let mut seen = [0; 24];
        for buckets in [1_024, 1_026, 2_000, 4_096] {
            for cell in [0x000f, 0x0f0f, 0x0f01, 0x0100, 0x0007] {
                let s = Settings::new(RING, 12, buckets, 0);
                for filled in 1..16 {
                    let table: Vec<u16> = (0..4 * buckets)
                        .map(|i| cell * (filled >> (i % 4) & 1))
                        .collect();
                    let mut out = vec![0; holdfile::HEAD + 9 * buckets as usize];
                    let length = holdfile::write(s, &table, &mut out).unwrap();
                    for bytes in damaged(&out[..length], &mut mix, 1) {
                        file_read(&bytes, table.len(), &mut seen);
                    }
                }
            }
        }
        assert_seen(&seen, &[0], 300);
        assert_seen(&seen, &[11, 13, 14, 15], 50);
    }

    /// Buckets with every four leads in every order.
    #[test]
    fn all_leads() {
        let mut mix = Mix(28);
        let mut seen = [0; 24];
        for width in 4..=16 {
            let s = Settings::new(PLAIN, width, 65_536, 0);
            // Rests of few values make many equal cells.
            let rests = 1 << (mix.below(2) * (width - 4));
            let table: Vec<u16> = (0..4 * s.buckets)
                .map(|i| {
                    let lead = (i / 4) >> (4 * (i % 4)) & 15;
                    (lead << (width - 4) | mix.below(rests)) as u16
                })
                .collect();
            let out = vec![0; 1 << 19];
            let form = packed_write(s, &table, &out, &mut seen);
            packed_read(s, &form, table.len(), &mut seen);
        }
        assert_eq!(seen[0], 26);
    }

    /// Numbers that are no row, and buckets that descend somewhere, in every place.
    #[test]
    fn all_faults_of_a_packed_bucket() {
        let mut mix = Mix(29);
        let mut seen = [0; 24];
        let rows = rows();
        for width in 4..=16 {
            let s = Settings::new(RING, width, 46, 0);
            let rest = width as usize - 4;
            let size = 4 * (width as usize - 1);
            for number in 0..1 << 12 {
                let at = mix.below(46) as usize;
                let rests = mix.draw() & ((1 << (4 * rest)) - 1);
                let bucket = number | u128::from(rests) << 12;
                let mut form = vec![0; (size * 46 + 7) / 8];
                for i in 0..size {
                    let bit = size * at + i;
                    form[bit / 8] |= ((bucket >> i & 1) as u8) << (bit % 8);
                }
                packed_read(s, &form, 4 * 46, &mut seen);
            }
        }
        assert_eq!(seen[18], 13 * ((1 << 12) - rows.len()));
        assert_seen(&seen, &[0, 19], 1_000);
    }
}
