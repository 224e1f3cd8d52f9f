//! Hold files: every shape, whole, cut short and damaged.

use engine::make::{cells, damage, long, one_of, settings, some_salt, Cells};
use engine::pair::{Call, Lend, Pair};
use oracle::holdfile::{self, HEAD};
use oracle::index::{Settings, MASKED, PLAIN, RING};
use oracle::requests::masks;

/// More cells and bytes than a file asks for.
const SPARE: usize = 8;

/// Room for the table and the file of these settings.
fn open(pair: &mut Pair, s: Settings) {
    let m = s.buckets as usize;
    pair.size(4 * m + SPARE, 0, HEAD + 9 * m + SPARE);
}

fn file(s: Settings, table: &[u16]) -> Vec<u8> {
    let mut bytes = vec![0; HEAD + 9 * s.buckets as usize];
    let length = holdfile::write(s, table, &mut bytes).expect("good settings and cells");
    bytes.truncate(length);
    bytes
}

fn some_file(pair: &mut Pair, s: Settings, kind: Cells) -> Vec<u8> {
    let table = cells(&mut pair.mix, s, kind);
    file(s, &table)
}

/// Files for each rule, width and bucket count, refused where the count does not fit the rule or the
/// mask does no work.
#[test]
fn shapes() {
    let mut pair = Pair::new("file shapes");
    for rule in [PLAIN, RING, MASKED] {
        for width in 4..=16 {
            for buckets in [1, 2, 4, 6, 16, 4_096, 65_536] {
                if buckets > 16 && ![4, 12, 16].contains(&width) {
                    continue;
                }
                let masks = match rule {
                    MASKED => [&[0, buckets - 1][..], &masks(buckets)].concat(),
                    _ => vec![0],
                };
                for mask in masks {
                    let s = Settings::new(rule, width, buckets, mask);
                    shape(&mut pair, s);
                    if buckets <= 16 || width == 12 {
                        let salt = some_salt(&mut pair.mix);
                        shape(&mut pair, s.with_salt(salt));
                    }
                }
            }
        }
    }
    pair.done(&[3, 4, 5, 11, 15, 16, 17]);
}

fn shape(pair: &mut Pair, s: Settings) {
    open(pair, s);
    let lend = Lend::of(s);
    for kind in [
        Cells::Empty,
        Cells::Random(50),
        Cells::Random(95),
        Cells::Full,
    ] {
        let table = cells(&mut pair.mix, s, kind);
        pair.set_table(0, &table);
        let all = lend.room(HEAD + 9 * s.buckets as usize + SPARE);
        let length = pair.run(all, Call::FileWrite);
        if length < 0 {
            assert_eq!(s.check().err().map(i64::from), Some(-length), "{s:?}");
            return;
        }
        let length = length as usize;
        assert_eq!(pair.run(lend.room(length), Call::FileWrite), length as i64);
        assert_eq!(pair.run(lend.room(length - 1), Call::FileWrite), -16);
        let bytes = pair.out()[..length].to_vec();
        pair.set_input(0, &bytes);
        // Over cells that held something else.
        let other: Vec<u16> = table.iter().map(|cell| cell ^ 0x5a5a).collect();
        pair.set_table(0, &other);
        for cells in [0, 1, lend.cells - 1, lend.cells + 1, lend.cells + 4] {
            let wrong = Lend { cells, ..lend };
            assert_eq!(pair.run(wrong.input(length), Call::FileRead), -5);
            assert_eq!(pair.run(wrong.room(length), Call::FileWrite), -5);
        }
        assert_eq!(pair.run(lend.input(length - 1), Call::FileRead), -11);
        assert_eq!(pair.run(lend.input(length + 1), Call::FileRead), -15);
        assert_eq!(pair.run(lend.input(length), Call::FileRead), 0);
        assert_eq!(pair.table()[..lend.cells], table);
        // A cell of 2^w and above, first of all and last of all, with room and with none.
        if s.width < 16 {
            for cell in [0, lend.cells - 1] {
                for value in [1 << s.width, 0xffff] {
                    let before = pair.table()[cell];
                    pair.set_table(cell, &[value]);
                    assert_eq!(pair.run(all, Call::FileWrite), -17);
                    assert_eq!(pair.run(all.room(0), Call::FileWrite), -17);
                    pair.set_table(cell, &[before]);
                }
            }
        }
    }
}

/// Every prefix of a file, and every room for a writer where it is small.
#[test]
fn truncations() {
    let mut pair = Pair::new("file truncations");
    let mut all = vec![];
    for width in [4, 12, 16] {
        all.push(Settings::new(PLAIN, width, 1, 0));
        all.push(Settings::new(PLAIN, width, 16, 0));
        all.push(Settings::new(RING, width, 6, 0));
        all.push(Settings::new(MASKED, width, 4, 1));
        all.push(Settings::new(MASKED, width, 8, 5));
    }
    all.push(Settings::new(PLAIN, 12, 4_096, 0));
    all.push(Settings::new(RING, 16, 4_096, 0));
    all.push(Settings::new(MASKED, 12, 4_096, 0x0ff));
    let salts = [1, 1 << 56, u64::MAX, 0x0123_4567_89ab_cdef];
    for (i, salt) in salts.into_iter().enumerate() {
        all.push(Settings::new(PLAIN, 12, 4_096, 0).with_salt(salt));
        all.push(Settings::new(PLAIN, 4, 1, 0).with_salt(salt));
        all.push(Settings::new(RING, 12, 6, 0).with_salt(salt));
        all.push(Settings::new(MASKED, 12, 8, 1 + i as u32).with_salt(salt));
    }
    for s in all {
        open(&mut pair, s);
        let table = cells(&mut pair.mix, s, Cells::Random(70));
        let bytes = file(s, &table);
        pair.set_input(0, &bytes);
        // The byte behind the file is not the reader's.
        let lend = Lend::of(s);
        for length in 0..bytes.len() {
            assert_eq!(pair.run(lend.input(length), Call::FileRead), -11);
        }
        for more in 1..=SPARE {
            let length = bytes.len() + more;
            assert_eq!(pair.run(lend.input(length), Call::FileRead), -15);
        }
        assert_eq!(pair.run(lend.input(bytes.len()), Call::FileRead), 0);
        assert_eq!(pair.table()[..lend.cells], table);
        if s.buckets > 16 {
            continue;
        }
        for room in 0..bytes.len() {
            assert_eq!(pair.run(lend.room(room), Call::FileWrite), -16);
        }
    }
    // Of the largest only some.
    for s in [
        Settings::new(PLAIN, 16, 65_536, 0),
        Settings::new(RING, 12, 65_534, 0),
        Settings::new(MASKED, 4, 65_536, 0xfffe),
    ] {
        open(&mut pair, s);
        let bytes = some_file(&mut pair, s, Cells::Random(95));
        pair.set_input(0, &bytes);
        let lend = Lend::of(s);
        for _ in 0..60 * long() {
            let length = pair.mix.below(bytes.len() as u64) as usize;
            assert_eq!(pair.run(lend.input(length), Call::FileRead), -11);
        }
        for back in 1..20 {
            let length = bytes.len() - back;
            assert_eq!(pair.run(lend.input(length), Call::FileRead), -11);
        }
        assert_eq!(pair.run(lend.input(bytes.len()), Call::FileRead), 0);
    }
    pair.done(&[11, 15, 16]);
}

/// Every value of every byte of small files.
#[test]
fn single_byte_changes() {
    let mut pair = Pair::new("single-byte changes");
    for s in [
        Settings::new(PLAIN, 4, 1, 0),
        Settings::new(PLAIN, 12, 1, 0),
        Settings::new(PLAIN, 16, 4, 0),
        Settings::new(RING, 12, 2, 0),
        Settings::new(RING, 16, 6, 0),
        Settings::new(RING, 4, 6, 0),
        Settings::new(MASKED, 12, 4, 1),
        Settings::new(MASKED, 5, 4, 2),
        Settings::new(MASKED, 16, 8, 5),
        // Of one bit, so that a byte that is changed makes it 0.
        Settings::new(PLAIN, 4, 1, 0).with_salt(1),
        Settings::new(RING, 12, 2, 0).with_salt(1 << 63),
        Settings::new(RING, 4, 6, 0).with_salt(u64::MAX),
        Settings::new(MASKED, 5, 4, 2).with_salt(0x0123_4567_89ab_cdef),
    ] {
        open(&mut pair, s);
        for kind in [Cells::Empty, Cells::Random(60), Cells::Full] {
            let bytes = some_file(&mut pair, s, kind);
            pair.set_input(0, &bytes);
            for at in 0..bytes.len() {
                for byte in 0..=u8::MAX {
                    pair.set_input(at, &[byte]);
                    pair.run(Lend::of(s).input(bytes.len()), Call::FileRead);
                }
                pair.set_input(at, &bytes[at..=at]);
            }
        }
    }
    pair.done(&[1, 2, 3, 4, 5, 11, 12, 13, 14, 15, 23]);
}

/// Every map byte with its fields, good and bad, whole and cut short, on a table that fits.
#[test]
fn map_bytes() {
    let rules: [u8; 5] = [0, 1, 2, 3, 255];
    let widths: [u8; 9] = [0, 3, 4, 11, 12, 13, 16, 17, 255];
    let counts: [u16; 7] = [0, 1, 3, 5, 4_094, 4_095, 65_535];
    let masks: [u16; 7] = [0, 1, 3, 5, 4_094, 4_095, 65_535];
    let salts: [u64; 4] = [0, 1, 1 << 56, 0x0123_4567_89ab_cdef];
    /// Each of the fields, or none where the bit does not stand.
    fn fields<T: Copy>(map: u8, bit: u8, list: &[T], bytes: impl Fn(T) -> Vec<u8>) -> Vec<Vec<u8>> {
        match map >> bit & 1 {
            0 => vec![vec![]],
            _ => list.iter().map(|&value| bytes(value)).collect(),
        }
    }
    let mut pair = Pair::new("map bytes");
    let mut accepted = 0;
    // By bucket count, so that buffers are made seldom.
    for (i, &count) in counts.iter().enumerate() {
        let with_count = u32::from(count) + 1;
        pair.size(4 * with_count as usize, 0, HEAD + with_count as usize);
        for map in 0..=u8::MAX {
            let has_count = map & 4 != 0;
            // Without the field there are 4,096 buckets.
            if !has_count && with_count != 4_096 {
                continue;
            }
            for rule in fields(map, 0, &rules, |n| vec![n]) {
                for width in fields(map, 1, &widths, |n| vec![n]) {
                    for mask in fields(map, 3, &masks, |n| n.to_le_bytes().to_vec()) {
                        let count = fields(map, 2, &counts[i..=i], |n| n.to_le_bytes().to_vec());
                        let head = [&[map][..], &rule, &width, &count[0], &mask].concat();
                        for salt in fields(map, 4, &salts, |n| n.to_le_bytes().to_vec()) {
                            let head = [&head[..], &salt].concat();
                            accepted += heads(&mut pair, &head, with_count);
                        }
                    }
                }
            }
        }
    }
    assert!(accepted >= 400, "{accepted}");
    pair.done(&[1, 2, 3, 4, 5, 11, 12, 23, 24]);
}

/// Reads and converts a head followed by so many empty buckets, and says how often it was read.
fn heads(pair: &mut Pair, head: &[u8], buckets: u32) -> u32 {
    let good = Settings::new(PLAIN, 12, buckets, 0);
    let lend = Lend::of(good);
    let length = head.len() + buckets as usize;
    pair.set_input(0, head);
    pair.set_input(head.len(), &vec![0; buckets as usize]);
    // What the map alone is refused for comes before all else, with bits 6 and 7 first.
    let early = match head[0] {
        0..=31 => Some(-23),
        32..=63 => None,
        _ => Some(-12),
    };
    let cuts = match early {
        Some(_) => 2.min(head.len()),
        None => head.len(),
    };
    for cut in 0..cuts {
        let number = if cut == 0 { -11 } else { early.unwrap_or(-11) };
        assert_eq!(pair.run(lend.input(cut), Call::FileRead), number);
    }
    let short = Lend {
        cells: lend.cells - 1,
        ..lend
    };
    let wrong = pair.run(short.input(length), Call::FileRead);
    let answer = pair.run(lend.input(length), Call::FileRead);
    let converted = pair.run(lend.input(length).room(length), Call::FileConvert);
    if let Some(number) = early {
        assert_eq!([wrong, answer, converted], [number; 3], "{head:?}");
    }
    // A file is either read or converted.
    match (answer, converted) {
        (0, -24) | (-4, 1..) => {}
        _ => assert_eq!(answer, converted, "{head:?}"),
    }
    u32::from(answer == 0)
}

/// One fault and several, where the number that has to come is known.
#[test]
fn order_of_checks() {
    let mut pair = Pair::new("order of file checks");
    pair.size(24, 0, 64);
    let salted = [
        0x36, 4, 0, 0, 0xef, 0xcd, 0xab, 0x89, 0x67, 0x45, 0x23, 0x01, 0x0a, 9, 0, 3, 0,
    ];
    let cases: [(&[u8], usize, i64); 99] = [
        (&[0x26, 4, 0, 0, 0x0a, 9, 0, 3, 0], 4, 0),
        (&salted, 4, 0),
        (&salted[..16], 4, 11),
        (&salted[..12], 4, 11),
        (&salted[..11], 4, 11),
        (&salted[..4], 0, 11),
        (&[], 4, 11),
        (&[0x30], 4, 11),
        (&[0x3f], 0, 11),
        // Bits 6 and 7, whatever else there is.
        (&[0x40], 4, 12),
        (&[0x60], 4, 12),
        (&[0x7f], 0, 12),
        (&[0x46, 4, 0, 0, 0x0a, 9, 0, 3, 0], 4, 12),
        (&[0x66, 4, 0, 0, 0x0a, 9, 0, 3, 0], 4, 12),
        (&[0xa6, 4, 0, 0, 0x0a, 9, 0, 3, 0], 4, 12),
        (&[0xe6, 4, 0, 0, 0x0a, 9, 0, 3, 0], 4, 12),
        (&[0x80, 0, 0], 0, 12),
        (&[0xc0], 0, 12),
        (&[0xff], 0, 12),
        // Earlier fingerprints: after those bits, and before the fields, good or bad.
        (&[0x00], 4, 23),
        (&[0x06], 0, 23),
        (&[0x1f], 0, 23),
        (&[0x06, 4, 0, 0, 0x0a, 9, 0, 3, 0], 4, 23),
        (&[0x16, 4, 0, 0, 1, 0, 0, 0, 0, 0, 0, 0, 0], 4, 23),
        (&[0x06, 4, 0, 0, 0x0a, 9, 0, 3, 0], 5, 23),
        (&[0x07, 7, 12, 0xff], 0, 23),
        (&[0x10, 0, 0, 0, 0, 0, 0, 0], 0, 23),
        (&[0x01, 0], 0, 23),
        (&[0x02, 12], 0, 23),
        (&[0x08, 0, 0], 0, 23),
        (&[0x01, 2], 0, 23),
        (&[0x10, 0, 0, 0, 0, 0, 0, 0, 0], 0, 23),
        (&[0x07, 7, 17, 2, 0], 0, 23),
        (&[0x02, 3], 0, 23),
        (&[0x05, 1, 2, 0], 0, 23),
        (&[0x0d, 2, 1, 0, 2, 0], 0, 23),
        (&[0x06, 4, 0, 0, 0xff], 4, 23),
        (&[0x06, 4, 0, 0, 0x01, 0, 0], 4, 23),
        (&[0x06, 4, 0, 0, 0x00, 0], 4, 23),
        // A salt that the bytes end before, whatever is wrong ahead of it.
        (&[0x30, 0, 0, 0, 0, 0, 0, 0], 0, 11),
        (&[0x33, 0, 12, 0, 0, 0, 0, 0, 0, 0], 0, 11),
        (&[0x38, 0, 0, 1, 0, 0, 0, 0, 0, 0], 0, 11),
        // A salt of 0 where it is there, before the settings.
        (&[0x30, 0, 0, 0, 0, 0, 0, 0, 0], 0, 12),
        (&[0x33, 7, 17, 0, 0, 0, 0, 0, 0, 0, 0], 0, 12),
        (&[0x33, 7, 17, 0, 0, 0, 0, 0, 0, 0, 1], 0, 1),
        (&[0x32, 17, 0, 0, 0, 0, 1, 0, 0, 0], 0, 2),
        (&[0x32, 12, 1, 0, 0, 0, 0, 0, 0, 0], 0, 12),
        (&[0x21], 0, 11),
        (&[0x23, 0], 0, 11),
        (&[0x27, 7, 12, 0xff], 0, 11),
        (&[0x2f, 7, 17, 0xff, 0x0f, 0], 0, 11),
        (&[0x21, 0], 0, 12),
        (&[0x22, 12], 0, 12),
        (&[0x24, 0xff, 0x0f], 0, 12),
        (&[0x28, 0, 0], 0, 12),
        (&[0x21, 2], 0, 12),
        (&[0x29, 1, 0, 0], 0, 12),
        (&[0x23, 7, 12], 0, 12),
        (&[0x29, 7, 0, 0], 0, 12),
        (&[0x26, 17, 0xff, 0x0f], 0, 12),
        (&[0x27, 7, 17, 2, 0], 0, 1),
        (&[0x21, 3], 0, 1),
        (&[0x26, 17, 2, 0], 0, 2),
        (&[0x22, 3], 0, 2),
        (&[0x2d, 2, 2, 0, 9, 0], 0, 3),
        (&[0x25, 1, 2, 0], 0, 3),
        (&[0x2d, 2, 1, 0, 9, 0], 0, 4),
        (&[0x2d, 2, 1, 0, 2, 0], 0, 4),
        // A mask that does no work, after the bucket count and before the table.
        (&[0x2d, 2, 2, 0, 0, 0], 12, 3),
        (&[0x2d, 2, 2, 0, 2, 0], 12, 3),
        (&[0x2d, 2, 0, 0, 0, 0, 0], 4, 4),
        (&[0x2d, 2, 1, 0, 0, 0, 0, 0], 8, 4),
        (&[0x2d, 2, 1, 0, 1, 0, 0, 0], 8, 4),
        (&[0x2d, 2, 3, 0, 0, 0, 0, 0, 0, 0], 16, 4),
        (&[0x2d, 2, 3, 0, 3, 0, 0, 0, 0, 0], 16, 4),
        (&[0x2d, 2, 3, 0, 1, 0, 0, 0, 0, 0], 16, 0),
        (&[0x2d, 2, 3, 0, 3, 0, 0xff], 0, 4),
        (&[0x29, 2, 0, 0], 0, 4),
        (&[0x29, 2, 0xff, 0x0f], 0, 4),
        (&[0x29, 2, 0xfe, 0x0f], 0, 5),
        (&[0x26, 4, 0, 0], 5, 5),
        (&[0x26, 4, 0, 0, 0xff], 0, 5),
        (&[0x26, 4, 1, 0], 8, 11),
        (&[0x26, 4, 1, 0, 0xff, 0, 0, 0xff], 8, 13),
        (&[0x26, 4, 1, 0, 0x10], 8, 13),
        (&[0x26, 4, 1, 0, 0x01, 0, 0, 0xff], 8, 14),
        (&[0x26, 4, 1, 0, 0x01, 16, 0, 0xff], 8, 14),
        (&[0x26, 4, 1, 0, 0x01, 1, 1, 0xff], 8, 14),
        (&[0x26, 4, 1, 0, 0x03, 0, 0, 1], 8, 14),
        (&[0x26, 4, 1, 0, 0x03, 1, 0, 0], 8, 11),
        (&[0x26, 4, 1, 0, 0x03, 1, 0, 16], 8, 11),
        (&[0x26, 4, 1, 0, 0x0f, 1, 0, 16, 0], 8, 14),
        (&[0x26, 4, 1, 0, 0x00, 0x10, 1, 2, 3], 8, 13),
        (&[0x26, 4, 1, 0, 0x00, 0x01, 0, 0, 0], 8, 14),
        (&[0x26, 4, 1, 0, 0x00, 0x00, 0xff, 0xff], 8, 15),
        (&[0x26, 4, 1, 0, 0x01, 15, 0, 0x0f], 8, 11),
        (&[0x22, 16], 24, 5),
        (&[0x30, 1, 0, 0, 0, 0, 0, 0, 0], 24, 5),
        (&[0x2f, 2, 16, 3, 0, 2, 0, 0, 0, 0, 0], 16, 0),
    ];
    let some = Settings::new(PLAIN, 12, 1, 0);
    for (bytes, cells, number) in cases {
        pair.set_input(0, bytes);
        let lend = Lend {
            cells,
            ..Lend::of(some).input(bytes.len())
        };
        assert_eq!(pair.run(lend, Call::FileRead), -number, "{bytes:?}");
    }
    // The writer: settings, table, 17, 16.
    pair.set_table(0, &[99; 24]);
    let write = |pair: &mut Pair, s: Settings, cells: usize, room: usize, number: i64| {
        let lend = Lend {
            cells,
            ..Lend::of(s).room(room)
        };
        assert_eq!(pair.run(lend, Call::FileWrite), -number, "{lend:?}");
    };
    write(&mut pair, Settings::new(3, 3, 3, 3), 3, 0, 1);
    write(&mut pair, Settings::new(PLAIN, 3, 3, 3), 3, 0, 2);
    write(&mut pair, Settings::new(PLAIN, 4, 3, 3), 3, 0, 3);
    write(&mut pair, Settings::new(PLAIN, 4, 2, 3), 3, 0, 4);
    write(&mut pair, Settings::new(MASKED, 4, 2, 0), 3, 0, 4);
    write(&mut pair, Settings::new(MASKED, 4, 4, 3), 16, 64, 4);
    write(&mut pair, Settings::new(PLAIN, 4, 2, 0), 3, 0, 5);
    write(&mut pair, Settings::new(PLAIN, 4, 2, 0), 8, 0, 17);
    write(&mut pair, Settings::new(PLAIN, 7, 2, 0), 8, 0, 16);
    pair.done(&[1, 2, 3, 4, 5, 11, 12, 13, 14, 15, 16, 17, 23]);
}

/// Files with any number of faults, on tables of any length.
#[test]
fn damaged() {
    let mut pair = Pair::new("damaged files");
    for round in 0..60_000 * long() {
        // Mostly small, where each fault is likely to be the one that counts.
        let log = if round % 50 == 0 { 7 } else { 3 };
        let s = settings(&mut pair.mix, log);
        let kind = one_of(
            &mut pair.mix,
            &[
                Cells::Empty,
                Cells::Random(30),
                Cells::Random(90),
                Cells::Few,
            ],
        );
        let mut bytes = some_file(&mut pair, s, kind);
        for _ in 0..pair.mix.below(4) {
            damage(&mut pair.mix, &mut bytes);
        }
        let cells = 4 * s.buckets as usize;
        pair.size(cells + 4, 0, bytes.len());
        pair.set_input(0, &bytes);
        let mut lend = Lend::of(s).input(bytes.len());
        if pair.mix.below(20) == 0 {
            lend.cells = pair.mix.below(cells as u64 + 5) as usize;
        }
        pair.run(lend, Call::FileRead);
    }
    pair.done(&[1, 2, 3, 4, 5, 11, 12, 13, 14, 15, 23]);
}
