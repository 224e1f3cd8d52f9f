//! Hold files from when a mask that does no work was still taken, converted to files of the plain rule.

use engine::make::{cells, damage, former_settings, long, one_of, settings, some_salt, tag, Cells};
use engine::pair::{Call, Lend, Pair};
use oracle::former;
use oracle::holdfile::HEAD;
use oracle::index::{Settings, MASKED, PLAIN, RING};
use oracle::requests::masks;

/// More bytes than a file asks for.
const SPARE: usize = 8;

/// A file of settings that were good once, whether they are or not.
fn file(s: Settings, table: &[u16]) -> Vec<u8> {
    let mut bytes = vec![0; HEAD + 9 * s.buckets as usize];
    let length = former::write(s, table, &mut bytes).expect("settings that were good");
    bytes.truncate(length);
    bytes
}

fn some_file(pair: &mut Pair, s: Settings, kind: Cells) -> Vec<u8> {
    let table = cells(&mut pair.mix, s, kind);
    file(s, &table)
}

fn plain(s: Settings) -> Settings {
    Settings {
        rule: PLAIN,
        mask: 0,
        ..s
    }
}

/// What has to come of a file, byte by byte: two bits of the map, the rule and the mask go.
fn without_rule_and_mask(s: Settings, file: &[u8]) -> Vec<u8> {
    assert_eq!((file[0] & 0x29, file[1]), (0x29, 2));
    let others = usize::from(s.width != 12) + 2 * usize::from(s.buckets != 4_096);
    let (ahead, behind) = (&file[2..2 + others], &file[2 + others + 2..]);
    [&[file[0] ^ 0x09][..], ahead, behind].concat()
}

/// What is lent to the converter: so many bytes of the input and of the output.
fn lend(input: usize, room: usize) -> Lend {
    let some = Settings::new(PLAIN, 4, 1, 0);
    Lend::of(some).input(input).room(room)
}

/// Puts the bytes where the input is, and makes as much room for the output and a few cells more.
fn put(pair: &mut Pair, bytes: &[u8]) {
    pair.size(0, 0, bytes.len() + SPARE);
    pair.set_input(0, bytes);
}

/// Each width and bucket count with either mask, with a salt and without: the bytes that come of a
/// file, and the list that the reader finds there.
#[test]
fn shapes() {
    let mut pair = Pair::new("converted shapes");
    for width in 4..=16 {
        for buckets in [1, 2, 4, 16, 4_096, 65_536] {
            if buckets > 16 && ![4, 12, 16].contains(&width) {
                continue;
            }
            for mask in [0, buckets - 1] {
                let s = Settings::new(MASKED, width, buckets, mask);
                shape(&mut pair, s);
                let salt = some_salt(&mut pair.mix);
                shape(&mut pair, s.with_salt(salt));
            }
        }
    }
    pair.done(&[4, 11, 15, 16, 24]);
}

fn shape(pair: &mut Pair, s: Settings) {
    let all = 4 * s.buckets as usize;
    for kind in [
        Cells::Empty,
        Cells::Random(50),
        Cells::Random(95),
        Cells::Full,
    ] {
        let table = cells(&mut pair.mix, s, kind);
        let bytes = file(s, &table);
        let length = bytes.len();
        pair.size(all, 0, length + SPARE);
        pair.set_input(0, &bytes);
        // The reader and the writer have settings of that kind no more.
        assert_eq!(pair.run(Lend::of(s).input(length), Call::FileRead), -4);
        assert_eq!(pair.run(Lend::of(s).room(length), Call::FileWrite), -4);

        let expected = without_rule_and_mask(s, &bytes);
        let n = expected.len();
        for room in [0, 1, n - 1] {
            assert_eq!(pair.run(lend(length, room), Call::FileConvert), -16);
        }
        for room in [n, n + 1, length, length + SPARE] {
            let answer = pair.run(lend(length, room), Call::FileConvert);
            assert_eq!(answer, n as i64, "{s:?}");
            assert!(pair.out()[..n] == expected, "{s:?}");
        }
        let whole = length + SPARE;
        assert_eq!(pair.run(lend(length - 1, whole), Call::FileConvert), -11);
        assert_eq!(pair.run(lend(length + 1, whole), Call::FileConvert), -15);
        assert_eq!(pair.run(lend(length + 1, 0), Call::FileConvert), -15);

        pair.set_input(0, &expected);
        let read = Lend::of(plain(s)).input(n);
        assert_eq!(pair.run(read, Call::FileRead), 0, "{s:?}");
        assert!(pair.table() == table, "{s:?}");
        // A file that is converted need not be, and cannot.
        assert_eq!(pair.run(lend(n, whole), Call::FileConvert), -24);
        assert_eq!(pair.run(lend(n, 0), Call::FileConvert), -24);
    }
}

/// Every prefix of a file, and every room for what comes of it.
#[test]
fn truncations() {
    let mut pair = Pair::new("converted truncations");
    let mut all = vec![];
    for width in [4, 12, 16] {
        for (buckets, mask) in [(1, 0), (2, 0), (2, 1), (4, 0), (4, 3), (16, 15)] {
            let s = Settings::new(MASKED, width, buckets, mask);
            all.extend([s, s.with_salt(some_salt(&mut pair.mix))]);
        }
    }
    all.push(Settings::new(MASKED, 12, 4_096, 0));
    all.push(Settings::new(MASKED, 16, 4_096, 4_095).with_salt(1 << 56));
    for s in all {
        let bytes = some_file(&mut pair, s, Cells::Random(70));
        let n = without_rule_and_mask(s, &bytes).len();
        put(&mut pair, &bytes);
        let length = bytes.len();
        let whole = length + SPARE;
        for cut in 0..length {
            // The byte behind the file is not the converter's, and room makes no difference.
            let room = if cut % 2 == 0 { 0 } else { whole };
            assert_eq!(pair.run(lend(cut, room), Call::FileConvert), -11);
        }
        for more in 1..=SPARE {
            assert_eq!(pair.run(lend(length + more, whole), Call::FileConvert), -15);
        }
        let rooms = if s.buckets > 16 { n - 300..n } else { 0..n };
        for room in rooms {
            assert_eq!(pair.run(lend(length, room), Call::FileConvert), -16);
        }
        for room in n..=whole {
            assert_eq!(pair.run(lend(length, room), Call::FileConvert), n as i64);
        }
    }
    // Of the largest only some.
    for mask in [0, 0xffff] {
        let s = Settings::new(MASKED, 12, 65_536, mask);
        let bytes = some_file(&mut pair, s, Cells::Random(95));
        let (length, n) = (bytes.len(), bytes.len() - 3);
        put(&mut pair, &bytes);
        for _ in 0..60 * long() {
            let cut = pair.mix.below(length as u64) as usize;
            assert_eq!(pair.run(lend(cut, n), Call::FileConvert), -11);
            let room = pair.mix.below(n as u64) as usize;
            assert_eq!(pair.run(lend(length, room), Call::FileConvert), -16);
        }
        assert_eq!(pair.run(lend(length, n), Call::FileConvert), n as i64);
    }
    pair.done(&[11, 15, 16]);
}

/// Every value of every byte of small files, with room for all of it and with none.
#[test]
fn single_byte_changes() {
    let mut pair = Pair::new("converted single-byte changes");
    let mut converted = 0;
    for s in [
        Settings::new(MASKED, 4, 1, 0),
        Settings::new(MASKED, 12, 2, 0),
        Settings::new(MASKED, 12, 2, 1),
        Settings::new(MASKED, 5, 4, 3),
        Settings::new(MASKED, 16, 8, 0),
        Settings::new(MASKED, 16, 8, 7),
        Settings::new(MASKED, 12, 4, 0).with_salt(1),
        Settings::new(MASKED, 5, 4, 3).with_salt(0x0123_4567_89ab_cdef),
        // One bit away from a mask that does no work.
        Settings::new(MASKED, 12, 4, 1),
        Settings::new(MASKED, 5, 4, 2).with_salt(1 << 63),
    ] {
        for kind in [Cells::Empty, Cells::Random(60), Cells::Full] {
            let bytes = some_file(&mut pair, s, kind);
            put(&mut pair, &bytes);
            let (length, whole) = (bytes.len(), bytes.len() + SPARE);
            for at in 0..length {
                for byte in 0..=u8::MAX {
                    pair.set_input(at, &[byte]);
                    let answer = pair.run(lend(length, whole), Call::FileConvert);
                    // What is wrong with the file comes before the room.
                    let none = pair.run(lend(length, 0), Call::FileConvert);
                    assert_eq!(none, if answer > 0 { -16 } else { answer });
                    converted += u32::from(answer > 0);
                }
                pair.set_input(at, &bytes[at..=at]);
            }
        }
    }
    assert!(converted > 1_000, "{converted}");
    pair.done(&[2, 3, 4, 11, 12, 13, 14, 15, 16, 23, 24]);
}

/// Each fault alone and before those that come later, where the number is known.
#[test]
fn order_of_checks() {
    let mut pair = Pair::new("order of the converter's checks");
    pair.size(0, 0, 64);
    let good = [
        0x2f, 2, 4, 3, 0, 3, 0, 0x0a, 9, 0, 3, 0, 0x00, 0x01, 15, 0, 0x0c, 1, 0, 2, 0,
    ];
    let cases: [(&[u8], usize, i64); 61] = [
        (&good, 64, 18),
        (&good, 18, 18),
        (&good, 17, -16),
        (&good, 0, -16),
        // Nothing, or a part of it.
        (&[], 64, -11),
        (&[], 0, -11),
        (&good[..20], 0, -11),
        (&good[..7], 64, -11),
        (&good[..6], 64, -11),
        (&good[..1], 0, -11),
        // The map, ahead of the fields that are not there.
        (&[0x40], 0, -12),
        (&[0x4f], 0, -12),
        (&[0xaf, 2, 4, 3, 0, 3, 0], 64, -12),
        (&[0xff], 64, -12),
        (&[0x00], 0, -23),
        (&[0x0f], 64, -23),
        (&[0x0f, 2, 4, 3, 0, 3, 0, 0, 0, 0, 0], 64, -23),
        (&[0x09, 1, 0, 0], 0, -23),
        (&[0x2f, 7, 12, 0xff, 0x0f, 0], 0, -11),
        (&[0x39, 2, 0, 0, 0, 0, 0, 0, 0, 0, 0], 0, -11),
        // Fields with their defaults, and a mask without the rule or a rule without the mask.
        (&[0x29, 0, 0, 0], 0, -12),
        (&[0x2b, 2, 12, 0, 0], 0, -12),
        (&[0x2d, 2, 0xff, 0x0f, 0, 0], 0, -12),
        (&[0x39, 2, 0, 0, 0, 0, 0, 0, 0, 0, 0, 0], 0, -12),
        (&[0x29, 1, 0, 0], 0, -12),
        (&[0x29, 3, 0, 0], 0, -12),
        (&[0x28, 0, 0], 0, -12),
        (&[0x21, 2], 0, -12),
        (&[0x23, 7, 12], 0, -12),
        // The settings as they were checked before, ahead of the buckets.
        (&[0x21, 3], 0, -1),
        (&[0x27, 3, 17, 2, 0], 0, -1),
        (&[0x2f, 2, 17, 2, 0, 9, 0], 0, -2),
        (&[0x2b, 2, 3, 0, 0], 0, -2),
        (&[0x2d, 2, 2, 0, 9, 0], 0, -3),
        (&[0x2d, 2, 2, 0, 2, 0, 0xff], 64, -3),
        (&[0x2d, 2, 2, 0, 0, 0], 0, -3),
        (&[0x25, 1, 2, 0], 0, -3),
        (&[0x2d, 2, 0, 0, 1, 0, 0], 64, -4),
        (&[0x2d, 2, 1, 0, 2, 0, 0xff], 0, -4),
        (&[0x2d, 2, 3, 0, 4, 0], 0, -4),
        (&[0x29, 2, 0x00, 0x10], 0, -4),
        // The buckets, also of a file that is none to convert.
        (&[0x2d, 2, 0, 0, 0, 0], 0, -11),
        (&[0x2d, 2, 1, 0, 1, 0, 0x10, 1], 0, -13),
        (&[0x2d, 2, 1, 0, 1, 0, 0x01, 0, 0, 0x10], 0, -14),
        (&[0x2d, 2, 1, 0, 1, 0, 0x01, 0, 0x10, 0], 0, -14),
        (&[0x2d, 2, 1, 0, 1, 0, 0x03, 1, 0, 0], 0, -11),
        (&[0x2d, 2, 1, 0, 1, 0, 0, 0, 0], 0, -15),
        (&[0x26, 4, 0, 0], 0, -11),
        (&[0x26, 4, 0, 0, 0xff], 0, -13),
        (&[0x2d, 2, 3, 0, 1, 0, 0, 0, 0, 0x01, 0, 0], 0, -14),
        (&[0x25, 1, 1, 0, 0, 0, 0], 0, -15),
        // Sound files that are none to convert, with room and without.
        (&[0x26, 4, 0, 0, 0], 64, -24),
        (&[0x26, 4, 0, 0, 0], 0, -24),
        (&[0x25, 1, 1, 0, 0, 0], 64, -24),
        (&[0x25, 1, 1, 0, 0, 0], 0, -24),
        (&[0x2d, 2, 3, 0, 1, 0, 0, 0, 0, 0], 64, -24),
        (&[0x2d, 2, 3, 0, 2, 0, 0, 0, 0, 0], 0, -24),
        // The smallest, with the width of its own and without.
        (&[0x2d, 2, 0, 0, 0, 0, 0], 3, -16),
        (&[0x2d, 2, 0, 0, 0, 0, 0], 4, 4),
        (&[0x2f, 2, 16, 0, 0, 0, 0, 0x01, 0xff, 0xff], 7, 7),
        (&[0x2d, 2, 1, 0, 1, 0, 0, 0], 5, 5),
    ];
    for (bytes, room, answer) in cases {
        pair.set_input(0, bytes);
        let lent = lend(bytes.len(), room);
        assert_eq!(pair.run(lent, Call::FileConvert), answer, "{bytes:02x?}");
    }
    pair.done(&[1, 2, 3, 4, 11, 12, 13, 14, 15, 16, 23, 24]);
}

/// The bytes that come of two files, one of them with a salt and no width.
#[test]
fn known_files() {
    let mut pair = Pair::new("known converted files");
    pair.size(0, 0, 64);
    let salt = [0xef, 0xcd, 0xab, 0x89, 0x67, 0x45, 0x23, 0x01];
    let salted = [&[0x3d, 2, 1, 0, 0, 0][..], &salt, &[0x08, 0xff, 0x0f, 0]].concat();
    let plain_salted = [&[0x34, 1, 0][..], &salt, &[0x08, 0xff, 0x0f, 0]].concat();
    for (bytes, expected) in [
        (
            &[0x2f, 2, 4, 0, 0, 0, 0, 0x0a, 9, 0, 3, 0][..],
            &[0x26, 4, 0, 0, 0x0a, 9, 0, 3, 0][..],
        ),
        (&salted, &plain_salted),
    ] {
        pair.set_input(0, bytes);
        let n = expected.len();
        for room in [n, n + 1, 64] {
            let answer = pair.run(lend(bytes.len(), room), Call::FileConvert);
            assert_eq!(answer, n as i64);
            assert_eq!(pair.out()[..n], *expected);
        }
    }
    pair.done(&[]);
}

/// Sound files of every other rule and mask, whole, cut and with more behind them.
#[test]
fn other_files() {
    let mut pair = Pair::new("files that are not converted");
    let mut all = vec![];
    for width in [4, 12, 16] {
        for buckets in [1, 2, 4, 8, 4_096] {
            all.push(Settings::new(PLAIN, width, buckets, 0));
            let masked = |mask| Settings::new(MASKED, width, buckets, mask);
            all.extend(masks(buckets).into_iter().map(masked));
        }
        for buckets in [2, 6, 4_096] {
            all.push(Settings::new(RING, width, buckets, 0));
        }
    }
    all.extend((1..15).map(|mask| Settings::new(MASKED, 12, 16, mask)));
    all.push(Settings::new(MASKED, 12, 65_536, 0xfffe));
    for s in all {
        let salt = one_of(&mut pair.mix, &[0, 1, 1 << 63]);
        let s = s.with_salt(salt);
        let bytes = some_file(&mut pair, s, Cells::Random(60));
        put(&mut pair, &bytes);
        let length = bytes.len();
        for (input, room, answer) in [
            (length, 0, -24),
            (length, length - 3, -24),
            (length, length + SPARE, -24),
            (length - 1, length, -11),
            (length + 1, length, -15),
        ] {
            let answered = pair.run(lend(input, room), Call::FileConvert);
            assert_eq!(answered, answer, "{s:?}");
        }
    }
    pair.done(&[11, 15, 24]);
}

/// Lists that were filled under a mask that does no work go on in the engine as they would have gone
/// on then: every tag has its number of copies, and every hold its moves or its refusal.
#[test]
fn lists_go_on() {
    let mut pair = Pair::new("converted lists");
    let (mut held, mut moved, mut full) = (0, 0, 0);
    let mut all: Vec<Settings> = (0..300 * long())
        .map(|_| former_settings(&mut pair.mix, 5))
        .collect();
    all.push(Settings::new(MASKED, 12, 4_096, 0));
    all.push(Settings::new(MASKED, 16, 1_024, 1_023).with_salt(7));
    for s in all {
        let words = 2 * s.buckets as usize;
        let mut table = vec![0; 4 * s.buckets as usize];
        let mut scratch: Vec<u32> = (0..words).map(|_| pair.mix.draw() as u32).collect();
        // Few kinds of tags, of which some are held more than once, or many.
        let kinds = u64::from(one_of(&mut pair.mix, &[2 * s.buckets, 1 << 20]));
        for _ in 0..pair.mix.below(5 * u64::from(s.buckets)) {
            let tag = tag(pair.mix.below(kinds));
            let _ = former::hold(s, &mut table, &mut scratch, &tag);
        }
        let bytes = file(s, &table);
        pair.size(table.len(), words, bytes.len());
        pair.set_input(0, &bytes);
        let n = pair.run(lend(bytes.len(), bytes.len()), Call::FileConvert);
        assert!(n > 0, "{s:?}: {n}");
        let converted = pair.out()[..n as usize].to_vec();
        pair.set_input(0, &converted);
        let lent = Lend::of(plain(s)).input(converted.len());
        assert_eq!(pair.run(lent, Call::FileRead), 0);
        assert!(pair.table() == table, "{s:?}");
        for step in 0..60 {
            let one = tag(pair.mix.below(kinds));
            let copies = pair.run(lent, Call::Lookup(&one));
            let former = former::lookup(s, &table, &one).expect("a good tag");
            assert_eq!(copies, i64::from(former), "{s:?} {one:?}");
            let answer = pair.run(lent, Call::Hold(&one));
            let former = former::hold(s, &mut table, &mut scratch, &one);
            assert_eq!(answer, former.map_or_else(|n| -i64::from(n), i64::from));
            held += u32::from(copies > 1);
            moved += u32::from(answer > 0);
            full += u32::from(answer == -9);
            if step % 3 == 0 {
                let other = tag(pair.mix.below(kinds));
                let answer = pair.run(lent, Call::Release(&other));
                let former = former::release(s, &mut table, &other).expect("a good tag");
                assert_eq!(answer, i64::from(former), "{s:?} {other:?}");
            }
            assert!(pair.table() == table, "{s:?}");
        }
    }
    for count in [held, moved, full] {
        assert!(count > 100, "{held} {moved} {full}");
    }
    pair.done(&[9]);
}

/// Files with any number of faults and rooms of any size, most of them of a mask that does no work.
#[test]
fn damaged() {
    let mut pair = Pair::new("damaged files to convert");
    let mut converted = 0;
    for round in 0..60_000 * long() {
        // Mostly small, where each fault is likely to be the one that counts.
        let log = if round % 50 == 0 { 7 } else { 3 };
        let s = match pair.mix.below(5) {
            0 => settings(&mut pair.mix, log),
            _ => former_settings(&mut pair.mix, log),
        };
        let kind = one_of(
            &mut pair.mix,
            &[
                Cells::Empty,
                Cells::Random(30),
                Cells::Random(90),
                Cells::Few,
            ],
        );
        let mut bytes = some_file(&mut pair, s, kind);
        for _ in 0..pair.mix.below(4) {
            damage(&mut pair.mix, &mut bytes);
        }
        put(&mut pair, &bytes);
        let length = bytes.len();
        let room = match pair.mix.below(4) {
            0 => pair.mix.below((length + SPARE) as u64) as usize,
            1 => length.saturating_sub(4),
            2 => length.saturating_sub(3),
            _ => length + SPARE,
        };
        let answer = pair.run(lend(length, room), Call::FileConvert);
        converted += u32::from(answer > 0);
    }
    assert!(converted > 5_000 * long(), "{converted}");
    pair.done(&[1, 2, 3, 4, 11, 12, 13, 14, 15, 16, 23, 24]);
}
