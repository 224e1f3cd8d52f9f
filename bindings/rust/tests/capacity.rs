//! Settings for a number of entries. That lists take so many is a claim about chance: what was measured
//! is the least that many lists took, and these are other lists.

use holdlist::{HoldList, LookupList, Refusal, Settings};

/// Tags that differ throughout, by splitmix64.
struct Tags(u64);

impl Iterator for Tags {
    type Item = [u8; 16];

    fn next(&mut self) -> Option<[u8; 16]> {
        let mut mix = || {
            self.0 = self.0.wrapping_add(0x9e37_79b9_7f4a_7c15);
            let z = (self.0 ^ (self.0 >> 30)).wrapping_mul(0xbf58_476d_1ce4_e5b9);
            let z = (z ^ (z >> 27)).wrapping_mul(0x94d0_49bb_1331_11eb);
            u128::from(z ^ (z >> 31))
        };
        Some((mix() << 64 | mix()).to_le_bytes())
    }
}

/// How many tags a list takes before one is refused.
fn taken(settings: Settings, seed: u64) -> usize {
    let mut list = HoldList::new(settings).unwrap();
    let stopped = list.hold_each(Tags(seed)).unwrap_err();
    assert_eq!(stopped.refusal, Refusal::Full);
    assert_eq!(stopped.place, list.len());
    list.len()
}

type For = fn(u32, usize) -> Result<Settings, Refusal>;
const FOR: [For; 3] = [
    Settings::plain_for,
    Settings::ring_for,
    Settings::masked_for,
];

fn masked(width: u32, bits: u32) -> Settings {
    Settings::masked(width, 1 << bits, (1 << (bits / 2)) - 1)
}

/// Every list that the call for a rule can answer, the smallest first.
fn all(rule: usize, width: u32) -> Vec<Settings> {
    match rule {
        0 => (0..=16).map(|k| Settings::plain(width, 1 << k)).collect(),
        1 => (1..=32_768).map(|l| Settings::ring(width, 2 * l)).collect(),
        _ => (2..=16).map(|k| masked(width, k)).collect(),
    }
}

// ── the number ──

#[test]
fn a_capacity_is_between_what_always_fits_and_the_cells() {
    for width in 4..=16 {
        for (rule, always) in [(0, 4), (1, 8), (2, 4)] {
            for s in all(rule, width) {
                let capacity = s.capacity();
                assert!(always <= capacity, "{s:?}");
                assert!(capacity <= 4 * s.buckets as usize, "{s:?}");
            }
        }
    }
}

#[test]
fn so_many_always_fit() {
    // of one tag, which has the fewest buckets, and of one with others
    for seed in 0..300 {
        let mut tags = Tags(seed);
        let [one, other] = [tags.next().unwrap(), tags.next().unwrap()];
        for width in [4, 8, 16] {
            for (s, always) in [
                (Settings::plain(width, 1), 4),
                (Settings::plain(width, 2), 4),
                (Settings::plain(width, 16), 4),
                (Settings::ring(width, 2), 8),
                (Settings::ring(width, 30), 8),
                (masked(width, 2), 4),
                (masked(width, 4), 4),
            ] {
                let mut list = HoldList::new(s).unwrap();
                assert_eq!(list.hold_each([one; 8].iter().take(always)), Ok(always));
                list.clear();
                let both = [one, other, other, one, other, other, one, one];
                assert_eq!(list.hold_each(both.iter().take(always)), Ok(always));
            }
        }
    }
}

#[test]
fn the_capacity_of_a_list_is_that_of_its_settings() {
    for s in [
        Settings::default(),
        Settings::ring(16, 1000).with_salt(7),
        Settings::masked(9, 32, 21),
    ] {
        let list = HoldList::new(s).unwrap();
        assert_eq!(list.capacity(), s.capacity());
        assert_eq!(LookupList::from(list).capacity(), s.capacity());
        // a salt and another mask have the same
        assert_eq!(s.with_salt(2_027).capacity(), s.capacity());
    }
    let masks = [1, 62, 63, 4_094];
    let capacities = masks.map(|mask| Settings::masked(12, 4096, mask).capacity());
    assert_eq!(capacities, [masked(12, 12).capacity(); 4]);
}

#[test]
fn settings_that_do_not_pass_have_none() {
    let good = Settings::ring(12, 10);
    assert!(good.capacity() > 0);
    for bad in [
        Settings { rule: 3, ..good },
        Settings {
            rule: u32::MAX,
            ..good
        },
        Settings { width: 3, ..good },
        Settings { width: 17, ..good },
        Settings {
            width: u32::MAX,
            ..good
        },
        Settings { buckets: 0, ..good },
        Settings {
            buckets: 11,
            ..good
        },
        Settings {
            buckets: 65_538,
            ..good
        },
        Settings {
            buckets: u32::MAX - 1,
            ..good
        },
        Settings { mask: 1, ..good },
        Settings::plain(12, 0),
        Settings::plain(12, 10),
        Settings::plain(12, 131_072),
        Settings::masked(12, 2, 1),
        Settings::masked(12, 16, 15),
    ] {
        assert!(bad.check().is_err());
        assert_eq!(bad.capacity(), 0, "{bad:?}");
    }
}

#[test]
fn a_power_of_two_more_buckets_have_no_less_capacity() {
    for width in 4..=16 {
        for rule in 0..3 {
            let powers = all(rule, width).into_iter();
            let capacities: Vec<_> = powers
                .filter(|s| s.buckets.is_power_of_two())
                .map(Settings::capacity)
                .collect();
            assert!(capacities.windows(2).all(|w| w[0] <= w[1]), "{width}");
            // and many have much more
            assert!(capacities[capacities.len() - 1] > 150_000);
        }
        // nor have two buckets more, between two powers, where the ring is whole
        for power in (2..16).map(|k| 1 << k) {
            let capacities: Vec<_> = (power / 2 + 1..power)
                .filter(|half| [3, 5, 29, 2_141, 18_367].iter().all(|f| half % f != 0))
                .map(|half| Settings::ring(width, 2 * half).capacity())
                .collect();
            assert!(capacities.windows(2).all(|w| w[0] <= w[1]), "{width}");
        }
    }
}

// ── settings for a number ──

/// Small numbers, those about powers of two, and others.
fn numbers() -> Vec<usize> {
    let mut numbers: Vec<usize> = (0..70)
        .chain([100, 1_000, 3_500, 10_000, 200_000])
        .collect();
    for k in 6..18 {
        numbers.extend((1 << k) - 2..(1 << k) + 3);
        numbers.push((1 << k) * 19 / 20);
    }
    for tag in Tags(1).take(100) {
        let number = usize::from(u16::from_le_bytes([tag[0], tag[1]]));
        numbers.push((4 * number) >> (tag[2] % 16));
    }
    numbers
}

#[test]
fn the_settings_for_a_number_are_the_smallest_with_its_capacity() {
    for width in 4..=16 {
        for (rule, settings_for) in FOR.into_iter().enumerate() {
            let all = all(rule, width);
            let capacities: Vec<usize> = all.iter().map(|s| s.capacity()).collect();
            let most = *capacities.iter().max().unwrap();
            for entries in numbers().into_iter().chain(most - 1..most + 2) {
                let expected = match capacities.iter().position(|&c| c >= entries) {
                    // so each smaller one has less
                    Some(i) => Ok(all[i]),
                    None => Err(Refusal::Buckets),
                };
                let found = settings_for(width, entries);
                assert_eq!(found, expected, "rule {rule}, width {width}, {entries}");
                if let Ok(s) = found {
                    assert_eq!((s.check(), s.rule as usize, s.width), (Ok(()), rule, width));
                    assert!(s.capacity() >= entries);
                }
                assert_eq!(found.is_err(), entries > most);
            }
        }
    }
}

#[test]
fn the_smallest_lists_and_the_largest() {
    for width in 4..=16 {
        for entries in [0, 1, 4] {
            assert_eq!(
                Settings::plain_for(width, entries),
                Ok(Settings::plain(width, 1))
            );
            assert_eq!(
                Settings::masked_for(width, entries),
                Ok(Settings::masked(width, 4, 1))
            );
        }
        for entries in [0, 1, 4, 8] {
            assert_eq!(
                Settings::ring_for(width, entries),
                Ok(Settings::ring(width, 2))
            );
        }
        assert_ne!(Settings::plain_for(width, 5).unwrap().buckets, 1);
        assert_ne!(Settings::ring_for(width, 9).unwrap().buckets, 2);
        assert_eq!(Settings::plain_for(width, 150_000).unwrap().buckets, 65_536);
        let masked = Settings::masked(width, 65_536, 255);
        assert_eq!(Settings::masked_for(width, 150_000), Ok(masked));
    }
}

#[test]
fn the_mask_is_the_lower_half_of_a_bucket_number() {
    for (buckets, mask) in [
        (4, 1),
        (8, 1),
        (16, 3),
        (64, 7),
        (128, 7),
        (4_096, 63),
        (65_536, 255),
    ] {
        let s = Settings::masked(12, buckets, mask);
        assert_eq!(Settings::masked_for(12, s.capacity()), Ok(s));
    }
}

#[test]
fn a_bad_width_is_refused_first() {
    for settings_for in FOR {
        for width in [0, 3, 17, u32::MAX] {
            for entries in [0, 1, 1_000, usize::MAX] {
                assert_eq!(settings_for(width, entries), Err(Refusal::Width));
            }
        }
        for entries in [262_145, 1 << 20, usize::MAX] {
            assert_eq!(settings_for(12, entries), Err(Refusal::Buckets));
        }
    }
}

// ── lists ──

#[test]
fn a_list_for_a_number_takes_so_many() {
    for n in [
        5, 9, 20, 60, 150, 400, 900, 2_000, 3_500, 7_000, 14_000, 28_000,
    ] {
        for settings_for in FOR {
            for width in [8, 12, 16] {
                let s = settings_for(width, n).unwrap();
                for seed in 0..3 {
                    let mut list = HoldList::new(s.with_salt(seed)).unwrap();
                    let held = list.hold_each(Tags(seed + n as u64).take(n));
                    assert_eq!(held, Ok(n), "{s:?}");
                    assert_eq!(list.len(), n);
                }
            }
        }
    }
}

#[test]
fn a_ring_that_is_several_rings_takes_what_is_said_of_it() {
    for (width, buckets) in [
        (4, 30),
        (4, 1_000),
        (4, 36_734),
        (6, 2_610),
        (8, 58),
        (8, 870),
        (8, 1_000),
        (8, 4_282),
        (9, 870),
        (10, 290),
        (11, 174),
        (12, 174),
        (12, 290),
        (12, 870),
        (12, 4_282),
        (13, 4_282),
        (14, 4_282),
    ] {
        let s = Settings::ring(width, buckets);
        for seed in 0..5 {
            assert!(taken(s, seed) >= s.capacity(), "{s:?}");
        }
    }
}

#[test]
fn more_buckets_are_not_always_more_room() {
    let [whole, several] = [868, 870].map(|m| Settings::ring(8, m));
    for seed in 0..5 {
        assert!(taken(whole, seed) > 3_300);
        assert!(taken(several, seed) < 1_740);
    }
    // the one is given and the other is not
    assert!(several.capacity() < 1_740 && whole.capacity() > 1_740);
    for entries in 1_740..3_400 {
        let s = Settings::ring_for(8, entries).unwrap();
        assert_ne!(s.buckets, 870);
    }
}
