//! The settings that a hold file names, from its header alone, held to a reader of headers that is written here from
//! docs/FORMATS.md. After every call the settings that were lent are compared, with what stands around them.

use engine::boundary::{words, Engine};
use engine::make::{long, one_of};
use engine::pair::Pair;
use oracle::index::{Answer, Settings};
use oracle::requests::Mix;
use std::io::{self, Write};

/// Rule, width, bucket count less 1, mask and salt: the bytes that each takes, and its default.
const SIZES: [usize; 5] = [1, 1, 2, 2, 8];
const DEFAULTS: [u64; 5] = [0, 12, 4_095, 0, 0];

/// The map bit that stands in every file: its fingerprints are spread over the width.
const EVEN: u8 = 0x20;

fn stands(map: u8, field: usize) -> bool {
    map >> field & 1 == 1
}

/// What a header names, or its refusal.
fn header(bytes: &[u8]) -> Answer<Settings> {
    let (&map, mut rest) = bytes.split_first().ok_or(11u32)?;
    if map > 63 {
        return Err(12);
    }
    if map < 32 {
        return Err(23);
    }
    let mut values = DEFAULTS;
    for (field, &size) in SIZES.iter().enumerate() {
        if stands(map, field) {
            let low_first = rest.get(..size).ok_or(11u32)?;
            values[field] = low_first
                .iter()
                .rev()
                .fold(0, |v, &b| 256 * v + u64::from(b));
            rest = &rest[size..];
        }
    }
    let [rule, width, less, mask] = [0, 1, 2, 3].map(|field| values[field] as u32);
    // The mask is there under rule 2, whatever it is; the others are where they are not the default.
    if [0, 1, 2, 4]
        .iter()
        .any(|&field| stands(map, field) && values[field] == DEFAULTS[field])
    {
        return Err(12);
    }
    if stands(map, 3) != (rule == 2) {
        return Err(12);
    }
    let settings = Settings::new(rule, width, less + 1, mask).with_salt(values[4]);
    settings.check()?;
    Ok(settings)
}

/// The bytes of a map and of the fields that stand in it.
fn spelled(map: u8, values: [u64; 5]) -> Vec<u8> {
    let mut bytes = vec![map];
    for field in (0..5).filter(|&field| stands(map, field)) {
        bytes.extend(&values[field].to_le_bytes()[..SIZES[field]]);
    }
    bytes
}

/// The engine, and how many calls of it there were, by their answer.
struct Held {
    mix: Mix,
    answers: [u64; 24],
}

impl Held {
    fn new(name: &str) -> Self {
        Held {
            mix: Pair::new(name).mix,
            answers: [0; 24],
        }
    }

    /// The first bytes of a buffer, whose others are not the call's.
    fn named(&mut self, buffer: &[u8], count: usize) -> i64 {
        let bytes = &buffer[..count];
        let engine = Engine {
            null: self.mix.below(2) == 0,
        };
        let before: [u32; 14] = std::array::from_fn(|_| self.mix.draw() as u32);
        let (mut found, mut expected) = (before, before);
        let answer = match header(bytes) {
            Ok(s) => {
                expected[4..10].copy_from_slice(&words(s));
                0
            }
            Err(number) => -i64::from(number),
        };
        let lent = (&mut found[4..10]).try_into().expect("six are lent");
        assert_eq!(engine.file_settings(bytes, lent), answer, "{bytes:02x?}");
        assert_eq!(found, expected, "{bytes:02x?}");
        // A header that is refused refuses the reading, whatever table is lent.
        if answer < 0 {
            let lent = (&mut found[4..10]).try_into().expect("six are lent");
            let mut table = [0x5a5a; 4];
            let cells = 4 * self.mix.below(2) as usize;
            let read = engine.file_read(bytes, &mut table[..cells], lent);
            assert_eq!((read, table), (answer, [0x5a5a; 4]), "{bytes:02x?}");
            assert_eq!(found, before, "{bytes:02x?}");
        }
        self.answers[-answer as usize] += 1;
        answer
    }

    /// Says how many calls there were, and makes sure that all answers were among them.
    fn done(self, name: &str) {
        let calls = self.answers.iter().sum::<u64>();
        // Past the capture of a test that passes; a line that cannot be written is no fault of the engine.
        let _ = writeln!(io::stderr(), "{name}: {calls} calls");
        for answer in [0, 1, 2, 3, 4, 11, 12, 23] {
            assert!(self.answers[answer] > 0, "no call answered {answer}");
        }
    }
}

/// Values of each field, good and bad, the default among them.
const VALUES: [&[u64]; 5] = [
    &[0, 1, 2, 3, 255],
    &[0, 3, 4, 11, 12, 13, 16, 17, 255],
    &[
        0, 1, 2, 3, 5, 7, 4_094, 4_095, 4_096, 65_533, 65_534, 65_535,
    ],
    &[0, 1, 2, 3, 5, 7, 4_094, 4_095, 4_096, 65_534, 65_535],
    &[0, 1, 1 << 32, 1 << 63, u64::MAX, 0x0123_4567_89ab_cdef],
];

/// Every map with these values of the fields that stand in it, and every truncation.
#[test]
fn maps_and_truncations() {
    let mut held = Held::new("headers of every map");
    for map in 0..=255 {
        let of = |field: usize| match stands(map, field) {
            true => VALUES[field],
            false => &DEFAULTS[field..field + 1],
        };
        for &rule in of(0) {
            for &width in of(1) {
                for &less in of(2) {
                    for &mask in of(3) {
                        for &salt in of(4) {
                            whole_and_cut(&mut held, map, [rule, width, less, mask, salt]);
                        }
                        // What the map alone is refused for comes before all else.
                        if !(32..64).contains(&map) {
                            break;
                        }
                    }
                }
            }
        }
    }
    held.done("headers of every map");
}

/// A header whole, with something behind it, and cut anywhere.
fn whole_and_cut(held: &mut Held, map: u8, values: [u64; 5]) {
    let mut bytes = spelled(map, values);
    let length = bytes.len();
    bytes.extend(held.mix.bytes(3));
    // What follows the header is not looked at.
    let whole = held.named(&bytes, length);
    assert_eq!(held.named(&bytes, length + 3), whole);
    let short = match map {
        0..=31 => -23,
        32..=63 => -11,
        _ => -12,
    };
    assert!(whole == short || short == -11, "{bytes:02x?}");
    for count in 1..length {
        assert_eq!(held.named(&bytes, count), short, "{bytes:02x?}");
    }
}

/// Every salt of one bit, of one byte and of all but one, alone and behind each set of good fields.
#[test]
fn salts() {
    let mut held = Held::new("headers with a salt");
    let bits = (0..64).flat_map(|bit| [1 << bit, !(1 << bit)]);
    let bytes = (0..8).flat_map(|at| (0..=255u64).map(move |byte| byte << (8 * at)));
    for salt in bits.chain(bytes) {
        for (map, values) in [
            (0x30, [0, 12, 4_095, 0]),
            (0x32, [0, 4, 4_095, 0]),
            (0x35, [1, 12, 5, 0]),
            (0x39, [2, 12, 4_095, 1]),
            (0x3f, [2, 16, 15, 12]),
        ] {
            let [rule, width, less, mask] = values;
            let bytes = spelled(map, [rule, width, less, mask, salt]);
            let answer = held.named(&bytes, bytes.len());
            assert_eq!(answer, if salt == 0 { -12 } else { 0 }, "{bytes:02x?}");
            whole_and_cut(&mut held, map, [rule, width, less, mask, salt]);
            // With a bit of the map that has no field, whatever the fingerprints are.
            for high in [0x40, 0x80, 0xc0] {
                for map in [map | high, map ^ EVEN | high] {
                    let bytes = spelled(map, [rule, width, less, mask, salt]);
                    assert_eq!(held.named(&bytes, bytes.len()), -12);
                }
            }
            // Of earlier fingerprints, whether the salt is good or not.
            let bytes = spelled(map ^ EVEN, [rule, width, less, mask, salt]);
            assert_eq!(held.named(&bytes, bytes.len()), -23);
        }
    }
    // A fault of each of the settings, behind a good salt.
    for (values, number) in [
        ([3, 12, 4_095, 0, 1], 1),
        ([0, 3, 4_095, 0, 1], 2),
        ([0, 4, 2, 0, 1], 3),
        ([2, 4, 3, 4, 1], 4),
    ] {
        let bytes = spelled(map_of(values), values);
        assert_eq!(held.named(&bytes, bytes.len()), -number);
    }
    held.done("headers with a salt");
}

/// Masks at both edges of what is good: nothing of an offset, the least and the greatest part of it,
/// all of it, and more. Of one bucket and of two none is good, and a bad bucket count comes before.
#[test]
fn masks() {
    let mut held = Held::new("headers with a mask");
    for log in 0..=16 {
        let last = (1u64 << log) - 1;
        for mask in [0, 1, 2, last / 2, last.max(1) - 1, last, last + 1, 65_535] {
            // In two bytes.
            if mask > 65_535 {
                continue;
            }
            for (width, salt) in [(12, 0), (4, 0), (16, 1), (12, u64::MAX)] {
                let values = [2, width, last, mask, salt];
                let bytes = spelled(map_of(values), values);
                let good = mask > 0 && mask < last;
                let answer = if good { 0 } else { -4 };
                assert_eq!(held.named(&bytes, bytes.len()), answer, "{bytes:02x?}");
                whole_and_cut(&mut held, map_of(values), values);
            }
        }
    }
    for less in [2, 4, 5, 6, 4_094, 4_096, 65_533, 65_534] {
        for mask in [0, 1, less - 1, less, less + 1] {
            let values = [2, 12, less, mask, 0];
            let bytes = spelled(map_of(values), values);
            assert_eq!(held.named(&bytes, bytes.len()), -3, "{bytes:02x?}");
        }
    }
    // The other answers, some of them ahead of such a mask.
    for (values, number) in [
        ([3, 12, 4_095, 0, 0], 1),
        ([0, 3, 4_095, 0, 0], 2),
        ([2, 3, 3, 3, 0], 2),
    ] {
        let bytes = spelled(map_of(values), values);
        assert_eq!(held.named(&bytes, bytes.len()), -number);
    }
    assert_eq!(held.named(&[0x29, 0, 0, 0], 4), -12);
    assert_eq!(held.named(&[0x09, 2, 0, 0], 4), -23);
    held.done("headers with a mask");
}

/// The map that the writer makes of these values.
fn map_of(values: [u64; 5]) -> u8 {
    let differs = |field: usize| u8::from(values[field] != DEFAULTS[field]) << field;
    let fields = differs(0) | differs(1) | differs(2) | u8::from(values[0] == 2) << 3 | differs(4);
    fields | EVEN
}

/// Every change of one byte, of good headers and bad.
#[test]
fn changed_bytes() {
    let mut held = Held::new("headers changed");
    for values in [
        [0, 12, 4_095, 0, 0],
        [0, 4, 0, 0, 0],
        [0, 16, 65_535, 0, 0],
        [0, 12, 15, 0, 0],
        [1, 12, 4_095, 0, 0],
        [1, 5, 5, 0, 0],
        [1, 16, 65_533, 0, 0],
        [2, 12, 4_095, 1, 0],
        [2, 12, 4_095, 4_094, 0],
        [2, 4, 3, 2, 0],
        [2, 9, 31, 21, 0],
        [2, 16, 65_535, 65_534, 0],
        [2, 12, 4_095, 0, 0],
        [2, 4, 0, 0, 0],
        [2, 16, 65_535, 65_535, 0],
        [3, 3, 2, 65_535, 0],
        [1, 17, 6, 0, 0],
        [2, 11, 4_094, 4_095, 0],
        [0, 12, 4_095, 0, 1],
        [0, 4, 0, 0, 1 << 63],
        [1, 12, 4_095, 0, u64::MAX],
        [1, 5, 5, 0, 0x0123_4567_89ab_cdef],
        [2, 12, 4_095, 2_048, 1 << 32],
        [2, 9, 31, 21, 0xff00],
        [3, 3, 2, 65_535, 1],
    ] {
        let mut bytes = spelled(map_of(values), values);
        let length = bytes.len();
        bytes.extend(held.mix.bytes(15));
        for at in 0..length {
            let kept = bytes[at];
            for byte in 0..=255 {
                bytes[at] = byte;
                // The map may have become one with more fields: those bytes are there, or are not.
                held.named(&bytes, length);
                held.named(&bytes, length + 8);
                held.named(&bytes, length + 15);
                held.named(&bytes, at + 1);
            }
            bytes[at] = kept;
        }
    }
    held.done("headers changed");
}

/// Bytes without a pattern, most of them under a map that is good.
#[test]
fn random_bytes() {
    let mut held = Held::new("random headers");
    for _ in 0..200_000 * long() {
        let count = held.mix.below(20) as usize;
        let mut bytes = held.mix.bytes(count);
        if count > 0 && held.mix.below(8) > 0 {
            bytes[0] = (bytes[0] % 32) | EVEN;
        }
        for byte in bytes.iter_mut().skip(1) {
            if held.mix.below(2) == 0 {
                *byte = one_of(&mut held.mix, &[0, 1, 2, 3, 4, 12, 15, 16, 255]);
            }
        }
        held.named(&bytes, count);
    }
    held.done("random headers");
}
