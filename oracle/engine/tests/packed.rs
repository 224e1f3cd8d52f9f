//! Packed forms: every width, whole, cut short and damaged.

use engine::make::{cells, damage, long, one_of, settings, some_salt, Cells};
use engine::pair::{Call, Lend, Pair};
use oracle::index::{Settings, PLAIN, RING};
use oracle::packed;

/// More cells and bytes than the form asks for.
const SPARE: usize = 8;

/// Settings of this width for any good bucket count.
fn with(width: u32, buckets: u32) -> Settings {
    let rule = match buckets.is_power_of_two() {
        true => PLAIN,
        false => RING,
    };
    Settings::new(rule, width, buckets, 0)
}

fn bytes_of(s: Settings) -> usize {
    (4 * (s.width as usize - 1) * s.buckets as usize + 7) / 8
}

fn open(pair: &mut Pair, s: Settings) {
    pair.size(4 * s.buckets as usize + SPARE, 0, bytes_of(s) + SPARE);
}

fn form(s: Settings, table: &[u16]) -> Vec<u8> {
    let mut bytes = vec![0; bytes_of(s)];
    assert_eq!(packed::write(s, table, &mut bytes), Ok(bytes.len()));
    bytes
}

fn some_form(pair: &mut Pair, s: Settings, kind: Cells) -> Vec<u8> {
    let table = cells(&mut pair.mix, s, kind);
    form(s, &table)
}

/// Puts a number of so many bits in the place of others.
fn set_bits(bytes: &mut [u8], at: usize, count: u32, number: u64) {
    for i in 0..count as usize {
        let (byte, bit) = ((at + i) / 8, (at + i) % 8);
        bytes[byte] &= !(1 << bit);
        bytes[byte] |= ((number >> i & 1) as u8) << bit;
    }
}

/// Where the bits of a bucket start.
fn start(s: Settings, bucket: u32) -> usize {
    (4 * (s.width - 1) * bucket) as usize
}

#[test]
fn shapes() {
    let mut pair = Pair::new("packed shapes");
    for width in 4..=16 {
        for buckets in [1, 2, 6, 10, 4_096, 65_536] {
            let s = with(width, buckets);
            open(&mut pair, s);
            let mut kinds = vec![
                Cells::Empty,
                Cells::Random(50),
                Cells::Random(95),
                Cells::Few,
                Cells::Full,
            ];
            if buckets < 4_096 {
                kinds.extend([Cells::Random(30); 40]);
            }
            for kind in kinds {
                shape(&mut pair, s, kind);
            }
        }
    }
    pair.done(&[5, 11, 15, 16, 17]);
}

fn shape(pair: &mut Pair, s: Settings, kind: Cells) {
    let lend = Lend::of(s);
    let length = bytes_of(s);
    let table = cells(&mut pair.mix, s, kind);
    pair.set_table(0, &table);
    assert_eq!(
        pair.run(lend.room(length + SPARE), Call::PackedWrite),
        length as i64
    );
    assert_eq!(
        pair.run(lend.room(length), Call::PackedWrite),
        length as i64
    );
    assert_eq!(pair.run(lend.room(length - 1), Call::PackedWrite), -16);
    let bytes = pair.out()[..length].to_vec();
    // The form has no salt, so that those of all salts are the same.
    let salt = some_salt(&mut pair.mix);
    let salted = Lend::of(s.with_salt(salt));
    assert_eq!(
        pair.run(salted.room(length), Call::PackedWrite),
        length as i64
    );
    assert!(pair.out()[..length] == bytes);
    pair.set_input(0, &bytes);
    let other: Vec<u16> = table.iter().map(|cell| cell ^ 0x5a5a).collect();
    pair.set_table(0, &other);
    for cells in [0, lend.cells - 1, lend.cells + 1, lend.cells + 4] {
        let wrong = Lend { cells, ..lend };
        assert_eq!(pair.run(wrong.input(length), Call::PackedRead), -5);
        assert_eq!(pair.run(wrong.room(length), Call::PackedWrite), -5);
    }
    assert_eq!(pair.run(lend.input(length - 1), Call::PackedRead), -11);
    assert_eq!(pair.run(lend.input(length + 1), Call::PackedRead), -15);
    let filled = table.iter().filter(|&&cell| cell != 0).count();
    for lend in [salted, lend] {
        assert_eq!(
            pair.run(lend.input(length), Call::PackedRead),
            filled as i64
        );
    }
    // What was read is written as the same bytes.
    assert_eq!(
        pair.run(lend.room(length), Call::PackedWrite),
        length as i64
    );
    assert!(pair.out()[..length] == bytes);
    if s.width < 16 {
        for cell in [0, lend.cells - 1] {
            let before = pair.table()[cell];
            pair.set_table(cell, &[1 << s.width]);
            assert_eq!(pair.run(lend.room(length), Call::PackedWrite), -17);
            assert_eq!(pair.run(lend, Call::PackedWrite), -17);
            pair.set_table(cell, &[before]);
        }
    }
}

/// Every prefix, and bytes too many.
#[test]
fn truncations() {
    let mut pair = Pair::new("packed truncations");
    for width in 4..=16 {
        for buckets in [1, 2, 6, 10, 128, 4_096, 65_536] {
            let s = with(width, buckets);
            open(&mut pair, s);
            let bytes = some_form(&mut pair, s, Cells::Random(80));
            pair.set_input(0, &bytes);
            let lend = Lend::of(s);
            let n = bytes.len();
            let lengths: Vec<usize> = match buckets {
                65_536 => (0..30)
                    .map(|_| pair.mix.below(n as u64) as usize)
                    .chain(n - 16..n)
                    .collect(),
                4_096 if ![4, 11, 16].contains(&width) => (0..64)
                    .chain(n / 2 - 32..n / 2 + 32)
                    .chain(n - 64..n)
                    .collect(),
                _ => (0..n).collect(),
            };
            for length in lengths {
                assert_eq!(pair.run(lend.input(length), Call::PackedRead), -11);
            }
            for more in 1..=SPARE {
                assert_eq!(pair.run(lend.input(n + more), Call::PackedRead), -15);
            }
            assert!(pair.run(lend.input(n), Call::PackedRead) >= 0);
        }
    }
    pair.done(&[11, 15]);
}

/// Every row number for the narrowest width, and for the others those that are too large.
#[test]
fn rows() {
    let mut pair = Pair::new("rows");
    for width in 4..=16 {
        for buckets in [1, 2, 6] {
            let s = with(width, buckets);
            open(&mut pair, s);
            let bytes = some_form(&mut pair, s, Cells::Random(80));
            let first = if width == 4 { 0 } else { 3_860 };
            for bucket in 0..buckets {
                for row in first..4_096 {
                    let mut bytes = bytes.clone();
                    set_bits(&mut bytes, start(s, bucket), 12, row);
                    pair.set_input(0, &bytes);
                    let answer = pair.run(Lend::of(s).input(bytes.len()), Call::PackedRead);
                    assert!((answer == -18) == (row >= 3_876), "{row}: {answer}");
                }
            }
        }
    }
    pair.done(&[18]);
}

/// Equal leads with rests that descend, in each place of each bucket.
#[test]
fn out_of_order() {
    let mut pair = Pair::new("out of order");
    for width in 5..=16 {
        for buckets in [1, 2, 6] {
            let s = with(width, buckets);
            let rest = width - 4;
            open(&mut pair, s);
            for round in 0..40 * long() {
                let lead = pair.mix.below(16) as u16;
                let bucket = pair.mix.below(buckets.into());
                let mut table = cells(&mut pair.mix, s, Cells::Random(80));
                // Four of one lead, with rests that ascend.
                let mut rests = [0; 4].map(|_| pair.mix.below(1 << rest) as u16);
                rests.sort_unstable();
                let from = 4 * bucket as usize;
                for (i, low) in rests.into_iter().enumerate() {
                    table[from + i] = lead << rest | low;
                }
                let bytes = form(s, &table);
                for i in 0..3 {
                    let mut bytes = bytes.clone();
                    let at = start(s, bucket) + 12 + (rest * i) as usize;
                    // The lower of the two is made larger, by the least that can be seen or by any.
                    let [low, high] = [rests[i as usize], rests[i as usize + 1]];
                    let good = match round % 2 {
                        0 => (high + 1).min((1 << rest) - 1),
                        _ => pair.mix.below(1 << rest) as u16,
                    };
                    set_bits(&mut bytes, at, rest, good.into());
                    pair.set_input(0, &bytes);
                    pair.run(Lend::of(s).input(bytes.len()), Call::PackedRead);
                    // The two changed about.
                    set_bits(&mut bytes, at, rest, high.into());
                    set_bits(&mut bytes, at + rest as usize, rest, low.into());
                    pair.set_input(0, &bytes);
                    let answer = pair.run(Lend::of(s).input(bytes.len()), Call::PackedRead);
                    assert!((answer == -19) == (low < high), "{rests:?}: {answer}");
                }
            }
        }
    }
    pair.done(&[19]);
}

/// Each filling bit, and all sets of them, alone and behind other faults.
#[test]
fn filling_bits() {
    let mut pair = Pair::new("filling bits");
    for width in (4..=16).step_by(2) {
        let s = with(width, 1);
        open(&mut pair, s);
        let lend = Lend::of(s).input(bytes_of(s));
        for _ in 0..20 * long() {
            let bytes = some_form(&mut pair, s, Cells::Random(80));
            for filling in 0..16 {
                let mut bytes = bytes.clone();
                set_bits(&mut bytes, start(s, 1), 4, filling);
                pair.set_input(0, &bytes);
                let answer = pair.run(lend, Call::PackedRead);
                assert_eq!(answer == -20, filling != 0, "{width} {filling}");
                set_bits(&mut bytes, 0, 12, 3_876);
                pair.set_input(0, &bytes);
                assert_eq!(pair.run(lend, Call::PackedRead), -18);
            }
        }
    }
    pair.done(&[18, 20]);
}

/// Every value of every byte of small forms.
#[test]
fn single_byte_changes() {
    let mut pair = Pair::new("packed single-byte changes");
    for width in 4..=16 {
        for buckets in [1, 2] {
            let s = with(width, buckets);
            open(&mut pair, s);
            let bytes = some_form(&mut pair, s, Cells::Random(70));
            pair.set_input(0, &bytes);
            for at in 0..bytes.len() {
                for byte in 0..=u8::MAX {
                    pair.set_input(at, &[byte]);
                    pair.run(Lend::of(s).input(bytes.len()), Call::PackedRead);
                }
                pair.set_input(at, &bytes[at..=at]);
            }
        }
    }
    pair.done(&[18, 19, 20]);
}

/// One fault and several, where the number that has to come is known.
#[test]
fn order_of_checks() {
    let mut pair = Pair::new("order of packed checks");
    pair.size(16, 0, 16);
    let mut read = |s: Settings, bytes: &[u8], cells: usize, number: i64| {
        pair.set_input(0, bytes);
        let lend = Lend {
            cells,
            ..Lend::of(s).input(bytes.len())
        };
        assert_eq!(pair.run(lend, Call::PackedRead), -number, "{lend:?}");
    };
    let all = [0xff; 6];
    read(Settings::new(3, 3, 3, 3), &all, 3, 1);
    read(Settings::new(PLAIN, 3, 3, 3), &all, 3, 2);
    read(Settings::new(PLAIN, 6, 3, 3), &all, 3, 3);
    read(Settings::new(PLAIN, 6, 1, 3), &all, 3, 4);
    read(Settings::new(PLAIN, 6, 1, 0), &all, 3, 5);
    read(Settings::new(PLAIN, 6, 1, 0), &all[..2], 4, 11);
    read(Settings::new(PLAIN, 6, 1, 0), &all, 4, 15);
    read(Settings::new(PLAIN, 6, 1, 0), &all[..3], 4, 18);
    read(Settings::new(PLAIN, 6, 1, 0), &[0, 0x10, 0xf0], 4, 19);
    read(Settings::new(PLAIN, 6, 1, 0), &[0, 0, 0x10], 4, 20);
    read(Settings::new(PLAIN, 6, 1, 0), &[0, 0, 0], 4, 0);
    // Bucket by bucket: 19 of the first before 18 of the second, and the other way about.
    let two = Settings::new(RING, 6, 2, 0);
    let bytes = |first: u64, second: u64| (first | second << 20).to_le_bytes();
    read(two, &bytes(0x1000, 0xfff)[..5], 8, 19);
    read(two, &bytes(0xfff, 0x1000)[..5], 8, 18);
    read(two, &bytes(0, 0xf24)[..5], 8, 18);
    read(two, &bytes(0xf23, 0x1000)[..5], 8, 19);
    // The writer: settings, table, 17, 16.
    pair.set_table(0, &[99; 16]);
    let mut write = |s: Settings, cells: usize, room: usize, number: i64| {
        let lend = Lend {
            cells,
            ..Lend::of(s).room(room)
        };
        assert_eq!(pair.run(lend, Call::PackedWrite), -number, "{lend:?}");
    };
    write(Settings::new(3, 3, 3, 3), 3, 0, 1);
    write(Settings::new(PLAIN, 3, 3, 3), 3, 0, 2);
    write(Settings::new(PLAIN, 4, 3, 3), 3, 0, 3);
    write(Settings::new(PLAIN, 4, 2, 3), 3, 0, 4);
    write(Settings::new(PLAIN, 4, 2, 0), 3, 0, 5);
    write(Settings::new(PLAIN, 4, 2, 0), 8, 0, 17);
    write(Settings::new(PLAIN, 7, 2, 0), 8, 0, 16);
    pair.done(&[1, 2, 3, 4, 5, 11, 15, 16, 17, 18, 19, 20]);
}

/// Forms with any number of faults, and bytes that are anything.
#[test]
fn damaged() {
    let mut pair = Pair::new("damaged packed forms");
    for _ in 0..60_000 * long() {
        let s = settings(&mut pair.mix, 3);
        let kind = one_of(
            &mut pair.mix,
            &[
                Cells::Empty,
                Cells::Random(30),
                Cells::Random(90),
                Cells::Few,
            ],
        );
        let mut bytes = match pair.mix.below(8) {
            0 => pair.mix.bytes(bytes_of(s)),
            _ => some_form(&mut pair, s, kind),
        };
        for _ in 0..pair.mix.below(4) {
            damage(&mut pair.mix, &mut bytes);
        }
        let cells = 4 * s.buckets as usize;
        pair.size(cells + 4, 0, bytes.len());
        pair.set_input(0, &bytes);
        let mut lend = Lend::of(s).input(bytes.len());
        if pair.mix.below(20) == 0 {
            lend.cells = pair.mix.below(cells as u64 + 5) as usize;
        }
        pair.run(lend, Call::PackedRead);
    }
    pair.done(&[5, 11, 15, 18, 19, 20]);
}
