//! The calls on settings, tags and buckets, and buffers that are empty.

use engine::make::{long, one_of, salt, settings, some_salt, spoil, tag};
use engine::pair::{Call, Lend, Pair};
use oracle::fnv_strings::KNOWN;
use oracle::index::{self, Settings, MASKED, PLAIN, RING};
use oracle::requests::SALTS;

#[test]
fn settings_grid() {
    let mut pair = Pair::new("settings");
    let mut counts: Vec<u32> = (0..=40).collect();
    for log in 6..=31 {
        counts.extend([(1 << log) - 2, (1 << log) - 1, 1 << log, (1 << log) + 1]);
    }
    counts.extend([65_538, 65_540, u32::MAX - 1, u32::MAX]);
    for rule in [0, 1, 2, 3, 4, 256, 1 << 31, u32::MAX] {
        for width in [0, 3, 4, 5, 12, 15, 16, 17, 32, u32::MAX] {
            for &buckets in &counts {
                let around = [2, 1, 0, u32::MAX].map(|less| buckets.wrapping_sub(less));
                for mask in [0, 1, 65_535, u32::MAX].into_iter().chain(around) {
                    let s = Settings::new(rule, width, buckets, mask);
                    let answer = pair.run(Lend::of(s), Call::Check);
                    // No salt makes any difference.
                    let salt = some_salt(&mut pair.mix);
                    let salted = Lend::of(s.with_salt(salt));
                    assert_eq!(pair.run(salted, Call::Check), answer);
                }
            }
        }
    }
    pair.done(&[1, 2, 3, 4]);
}

#[test]
fn known_strings() {
    let mut pair = Pair::new("known strings");
    for known in KNOWN {
        for (rule, mask) in [(PLAIN, 0), (RING, 0), (MASKED, 0xff)] {
            for width in 4..=16 {
                let s = Settings::new(rule, width, 65_536, mask);
                for salt in [0, salt(&mut pair.mix)] {
                    let lend = Lend::of(s.with_salt(salt));
                    pair.run(lend, Call::Fingerprint(&known.bytes()));
                    pair.run(lend, Call::Home(&known.bytes()));
                }
            }
        }
    }
    pair.done(&[]);
}

#[test]
fn tags() {
    let mut pair = Pair::new("tags");
    for _ in 0..40 * long() {
        let good = settings(&mut pair.mix, 16);
        let bad = spoil(&mut pair.mix, good);
        for length in (0..=66).chain([67, 127, 128, 255, 256, 257, 320, 1_000, 1_024]) {
            let tag = pair.mix.bytes(length);
            for s in [good, bad] {
                pair.run(Lend::of(s), Call::Fingerprint(&tag));
                pair.run(Lend::of(s), Call::Home(&tag));
            }
        }
    }
    // Each refusal of settings before that of the tag, whatever the random ones were.
    for bad in [
        Settings::new(3, 12, 8, 0),
        Settings::new(PLAIN, 3, 8, 0),
        Settings::new(RING, 12, 7, 0),
        Settings::new(MASKED, 12, 8, 8),
        Settings::new(MASKED, 12, 8, 7),
        Settings::new(MASKED, 12, 8, 0),
        Settings::new(MASKED, 12, 2, 1),
        Settings::new(MASKED, 12, 1, 0),
    ] {
        for length in [0, 1, 64, 65] {
            let (tag, salt) = (pair.mix.bytes(length), salt(&mut pair.mix));
            pair.run(Lend::of(bad.with_salt(salt)), Call::Fingerprint(&tag));
            pair.run(Lend::of(bad.with_salt(salt)), Call::Home(&tag));
        }
    }
    pair.done(&[1, 2, 3, 4, 7]);
}

/// The fingerprint as the rule says it, of a hash that is made here. Low halves at the edges of a row
/// are found by trying tags, so that every width has its least and its greatest fingerprint, and those
/// where another modulus, the whole hash or a bit pattern would give another.
#[test]
fn fingerprints() {
    let mut pair = Pair::new("fingerprints");
    let by_word = |hash: u64, width: u32| {
        let low = u128::from(hash) % (1 << 32);
        i64::try_from(1 + low % ((1 << width) - 1)).expect("a small number")
    };
    for width in 4..=16 {
        let last = (1u32 << width) - 1;
        let mut met = [false; 6];
        for n in 0..=u32::MAX {
            let tag = n.wrapping_mul(0x9e37_79b1).to_be_bytes();
            let hash = index::fnv1a(&tag);
            let low = hash as u32;
            let edges = [
                low % last == 0,
                low % last == last - 1,
                low & last == 0,
                low & last == last,
                low & last == last - 1,
                hash % u64::from(last) == 0,
            ];
            let new = edges.iter().zip(met).any(|(&edge, met)| edge && !met);
            if n > 2_000 && !new {
                match met.contains(&false) {
                    true => continue,
                    false => break,
                }
            }
            for (met, edge) in met.iter_mut().zip(edges) {
                *met |= edge;
            }
            for (rule, buckets, mask) in [(PLAIN, 1, 0), (RING, 6, 0), (MASKED, 65_536, 1)] {
                let lend = Lend::of(Settings::new(rule, width, buckets, mask));
                let answer = pair.run(lend, Call::Fingerprint(&tag));
                assert_eq!(answer, by_word(hash, width), "{tag:?} {width}");
                assert!((1..=last.into()).contains(&answer));
            }
        }
    }
    pair.done(&[]);
}

/// At width 4 each of the fifteen fingerprints comes up as often as the others, as far as hashes do.
#[test]
fn fingerprints_are_even() {
    let mut pair = Pair::new("even fingerprints");
    let lend = Lend::of(Settings::new(PLAIN, 4, 1, 0));
    let mut counts = [0; 15];
    for _ in 0..30_000 {
        let tag = pair.mix.bytes(8);
        counts[pair.run(lend, Call::Fingerprint(&tag)) as usize - 1] += 1;
    }
    // 2,000 of each, and no more than ten times their spread beside it. As 1 for 0, 1 would have 3,750.
    for count in counts {
        assert!((1_550..2_450).contains(&count), "{counts:?}");
    }
    pair.done(&[]);
}

/// "a" under salts, where the hashes were worked out elsewhere, and that the salt is no part of an
/// offset. A number has the remainder by 4,095 that the sum of its digits to the base 4,096 has.
#[test]
fn known_salts() {
    let mut pair = Pair::new("known salts");
    let plain = Settings::new(PLAIN, 12, 4_096, 0);
    for (salt, digits, home) in [
        (0, 0x086 + 0x01e + 0xc8c, 0xc4c),
        (1, 0x086 + 0x01e + 0xe3f, 0xd4c),
        (1 << 32, 0x086 + 0x01e + 0xc8c, 0xdff),
        (1 << 63, 0x086 + 0x01e + 0xc8c, 0xc4c),
        (u64::MAX, 0x079 + 0xfe1 + 0x1c1 - 4_095, 0x2b3),
        (index::FNV_START, 0x00a + 0x4d3, 0x100),
        (0x0123_4567_89ab_cdef, 0x001 + 0x608 + 0xc91 - 4_095, 0x4b0),
    ] {
        let fingerprint = 1 + digits;
        let lend = Lend::of(plain.with_salt(salt));
        let answer = pair.run(lend, Call::Fingerprint(b"a"));
        assert_eq!(answer, fingerprint, "{salt:x}");
        assert_eq!(pair.run(lend, Call::Home(b"a")), home, "{salt:x}");
        assert_eq!(pair.run(lend, Call::Offset(0xc8c)), 2_629, "{salt:x}");
    }
    // From 0 on, bytes of 0 leave the hash at 0.
    let zero = Lend::of(plain.with_salt(index::FNV_START));
    for length in [1, 2, 63, 64] {
        let tag = vec![0; length];
        assert_eq!(pair.run(zero, Call::Fingerprint(&tag)), 1);
        assert_eq!(pair.run(zero, Call::Home(&tag)), 0);
    }
    pair.done(&[]);
}

/// What a salt turns over in the low byte of the start, the first byte of a tag can turn back.
#[test]
fn salts_and_first_bytes() {
    let mut pair = Pair::new("salts and first bytes");
    for _ in 0..4_000 * long() {
        let s = settings(&mut pair.mix, 16);
        let length = 1 + pair.mix.below(64) as usize;
        let tag = pair.mix.bytes(length);
        let byte = pair.mix.draw() as u8;
        let mut other = tag.clone();
        other[0] ^= byte;
        let turned = s.with_salt(s.salt ^ u64::from(byte));
        for call in [Call::Fingerprint, Call::Home] {
            let answer = pair.run(Lend::of(s), call(&tag));
            assert_eq!(pair.run(Lend::of(turned), call(&other)), answer);
        }
    }
    pair.done(&[]);
}

/// Each bit of a salt. As no bit of a hash comes from a higher one, the lowest bit in which two
/// salts differ is one in which all their hashes differ, and no lower one is. So the bits from 32 on
/// reach no fingerprint, and those from 48 on nothing here. Below 32, low halves differ by an odd
/// multiple of 2^bit: from bit 17 on the fingerprints differ, since so small a multiple is none of
/// 2^16 - 1, and below that they do but by chance.
#[test]
fn bits_of_a_salt() {
    let mut pair = Pair::new("bits of a salt");
    let plain = Settings::new(PLAIN, 16, 65_536, 0);
    for bit in 0..64 {
        let mut changed = 0;
        for _ in 0..40 * long() {
            let length = 1 + pair.mix.below(64) as usize;
            let tag = pair.mix.bytes(length);
            let salt = salt(&mut pair.mix);
            let mut entry = |salt: u64| {
                let lend = Lend::of(plain.with_salt(salt));
                let fingerprint = pair.run(lend, Call::Fingerprint(&tag));
                (fingerprint, pair.run(lend, Call::Home(&tag)))
            };
            let (one, other) = (entry(salt), entry(salt ^ 1 << bit));
            let (same, homes) = (one.0 == other.0, one.1 ^ other.1);
            changed += u32::from(!same);
            match bit {
                0..=16 => {}
                17..=30 => assert!(!same, "{salt:x}"),
                // By 2^31 one way or the other, with the remainder 2^15.
                31 => {
                    let by = (one.0 - other.0).rem_euclid(0xffff);
                    assert!([0x8000, 0x7fff].contains(&by), "{salt:x}");
                }
                32..=47 => {
                    let found = (same, homes.trailing_zeros());
                    assert_eq!(found, (true, bit - 32), "{salt:x}");
                }
                _ => assert_eq!((same, homes), (true, 0), "{salt:x}"),
            }
        }
        // One in 65,535 stays by chance.
        assert!(bit > 16 || changed > 20 * long(), "{bit}: {changed}");
    }
    pair.done(&[]);
}

#[test]
fn candidates() {
    let mut pair = Pair::new("candidates");
    // Under each salt the same offsets and candidates.
    for s in [
        Settings::new(PLAIN, 16, 65_536, 0),
        Settings::new(RING, 4, 65_534, 0),
        Settings::new(MASKED, 12, 1_024, 0x155),
    ] {
        for value in (0..=u16::MAX).step_by(101) {
            let plain = pair.run(Lend::of(s), Call::Offset(value));
            for salt in SALTS {
                let salted = Lend::of(s.with_salt(salt));
                assert_eq!(pair.run(salted, Call::Offset(value)), plain);
                pair.run(salted, Call::Candidates(value, 3));
            }
        }
    }
    // Every offset of some settings.
    for s in [
        Settings::new(PLAIN, 16, 65_536, 0),
        Settings::new(RING, 4, 65_534, 0),
        Settings::new(MASKED, 12, 1_024, 0x155),
    ] {
        for value in 0..=u16::MAX {
            pair.run(Lend::of(s), Call::Offset(value));
        }
    }
    // Every bucket of small ones, with some beyond.
    for _ in 0..400 * long() {
        let s = settings(&mut pair.mix, 5);
        for bucket in (0..s.buckets + 2).chain([u32::MAX]) {
            let value = pair.mix.draw() as u16;
            pair.run(Lend::of(s), Call::Candidates(value, bucket));
        }
    }
    for _ in 0..30_000 * long() {
        let mut s = settings(&mut pair.mix, 16);
        let value = match pair.mix.below(4) {
            0 => one_of(&mut pair.mix, &[0, 1, 0x7fff, 0x8000, 0xffff]),
            _ => pair.mix.draw() as u16,
        };
        let bucket = match pair.mix.below(8) {
            0 => s.buckets - 1,
            1 => s.buckets / 2,
            2 => s.buckets.wrapping_add(pair.mix.below(3)),
            _ => pair.mix.below(s.buckets.into()),
        };
        if pair.mix.below(20) == 0 {
            s = spoil(&mut pair.mix, s);
        }
        pair.run(Lend::of(s), Call::Candidates(value, bucket));
        pair.run(Lend::of(s), Call::Offset(value));
    }
    pair.done(&[1, 2, 3, 4, 8]);
}

/// Lookups and releases in tables of any values, many of them the tag's own fingerprint or one bit
/// beside it: the number is that of the cells in all candidate buckets, and each release takes one.
#[test]
fn copies_in_any_table() {
    let mut pair = Pair::new("copies");
    let (mut coinciding, mut most) = (0, 0);
    for _ in 0..4_000 * long() {
        let s = settings(&mut pair.mix, 5);
        let lend = Lend::of(s);
        pair.size(lend.cells, 0, 0);
        let tag = pair.mix.bytes(4);
        let (fingerprint, home) = index::entry(s, &tag).expect("good settings and a good tag");
        let candidates = index::candidates(s, fingerprint, home).expect("a home bucket");
        let cells: Vec<u16> = (0..lend.cells)
            .map(|_| match pair.mix.below(3) {
                0 => fingerprint,
                1 => fingerprint ^ 1 << pair.mix.below(16),
                _ => pair.mix.draw() as u16,
            })
            .collect();
        pair.set_table(0, &cells);
        let copies = (0..cells.len())
            .filter(|&i| cells[i] == fingerprint && candidates.contains(&(i as u32 / 4)))
            .count() as i64;
        for left in (0..=copies).rev() {
            assert_eq!(pair.run(lend, Call::Lookup(&tag)), left);
            assert_eq!(
                pair.run(lend, Call::Release(&tag)),
                i64::from(left > 0),
                "{s:?}"
            );
        }
        let again = |i: usize| candidates[..i].contains(&candidates[i]);
        coinciding += u32::from((1..candidates.len()).any(again));
        most = most.max(copies);
    }
    assert!(coinciding > 100, "{coinciding}");
    assert!(most > 8, "{most}");
    pair.done(&[]);
}

/// Each buffer in turn, and all of them, with nothing in it: as null, or by its place.
#[test]
fn empty_buffers() {
    let mut pair = Pair::new("empty buffers");
    let good = Settings::new(PLAIN, 4, 2, 0);
    let whole = Lend::of(good).input(5).room(64);
    let none = Lend {
        cells: 0,
        words: 0,
        input: 0,
        room: 0,
        ..whole
    };
    pair.size(whole.cells, whole.words, 64);
    let tag = tag(1);
    // Each is lent both ways in some of the rounds.
    for _ in 0..40 {
        pair.set_table(0, &[1, 2, 3, 4, 5, 6, 7, 8]);
        let mut expect = |lend: Lend, call: Call, answer: i64| {
            assert_eq!(pair.run(lend, call), answer, "{lend:?} {call:?}");
        };
        expect(none, Call::Check, 0);
        expect(none, Call::Fingerprint(&[]), -7);
        expect(none, Call::Home(&[]), -7);
        for call in [
            Call::Clear,
            Call::Lookup(&tag),
            Call::Lookup(&[]),
            Call::Release(&tag),
            Call::Release(&[]),
            Call::Hold(&tag),
            Call::Hold(&[]),
            Call::Forecast(&tag),
            Call::Forecast(&[]),
            Call::View(0),
            Call::FileWrite,
            Call::FileLength,
            Call::PackedWrite,
            Call::PackedRead,
        ] {
            expect(none, call, -5);
            expect(Lend { cells: 0, ..whole }, call, -5);
        }
        expect(whole, Call::Lookup(&[]), -7);
        expect(whole, Call::Release(&[]), -7);
        expect(whole, Call::Hold(&[]), -7);
        expect(Lend { words: 0, ..whole }, Call::Hold(&tag), -6);
        expect(Lend { words: 0, ..whole }, Call::Hold(&[]), -6);
        expect(whole, Call::Forecast(&[]), -7);
        expect(Lend { words: 0, ..whole }, Call::Forecast(&tag), -6);
        expect(Lend { words: 0, ..whole }, Call::Forecast(&[]), -6);
        expect(whole, Call::Forecast(&tag), -9);
        expect(none, Call::FileRead, -11);
        expect(none, Call::FileConvert, -11);
        expect(whole.input(0), Call::FileRead, -11);
        expect(whole.input(0), Call::FileConvert, -11);
        expect(whole.input(0), Call::PackedRead, -11);
        expect(whole.room(0), Call::FileWrite, -16);
        expect(whole.room(0), Call::PackedWrite, -16);
        expect(whole.room(0), Call::FileLength, 22);
        expect(
            Lend {
                words: 0,
                ..whole.room(0)
            },
            Call::FileLength,
            22,
        );
        // A good file of a table that is not there.
        pair.set_input(0, &[0x26, 4, 1, 0, 0]);
        pair.set_input(5, &[0]);
        assert_eq!(pair.run(none.input(6), Call::FileRead), -5);
        assert_eq!(pair.run(whole.input(6), Call::FileRead), 0);
        assert_eq!(pair.table()[..8], [0; 8]);
        // No table is lent to be converted from, and no room to be converted to.
        assert_eq!(pair.run(none.input(6), Call::FileConvert), -24);
        pair.set_input(0, &[0x2f, 2, 4, 1, 0, 1, 0, 0, 0]);
        assert_eq!(pair.run(none.input(9), Call::FileConvert), -16);
        assert_eq!(pair.run(none.input(9).room(6), Call::FileConvert), 6);
        assert_eq!(pair.out()[..6], [0x26, 4, 1, 0, 0, 0]);
    }
    pair.done(&[5, 6, 7, 9, 11, 16, 24]);
}
