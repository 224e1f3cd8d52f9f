//! The bucket view: which cells it hands back, by their place and by their values. It has a boundary
//! that only this test uses, `crates/test_view`, which tells a view cell by cell, and takes no salt: a
//! view has no use for one. So a place is told by cells of which no two buckets have the same, and by a
//! cell that is changed between two views.

use engine::boundary::Engine;
use engine::make::{cells, long, one_of, settings, spoil, Cells};
use engine::seed;
use oracle::index::{Settings, MASKED, PLAIN, RING};
use oracle::requests::Mix;
use oracle::table;

const NAME: &str = "bucket view";

/// What stands for a cell that the view has not.
const NONE: u32 = 65_536;

#[rustfmt::skip]
extern "C" {
    fn test_view_cell(rule: u32, width: u32, buckets: u32, mask: u32, table: *const u16, cells: usize, bucket: u32, i: u32) -> u32;
}

/// The cells of a view, and that it has none after them.
fn view(s: Settings, table: &[u16], bucket: u32) -> Vec<u16> {
    let (place, count) = (table.as_ptr(), table.len());
    // The table is lent whole, and is not written.
    let cell =
        |i| unsafe { test_view_cell(s.rule, s.width, s.buckets, s.mask, place, count, bucket, i) };
    let part: Vec<u16> = (0..6)
        .map(cell)
        .take_while(|&value| value != NONE)
        .map(|value| value as u16)
        .collect();
    for i in [6, 1 << 16, u32::MAX]
        .into_iter()
        .chain(part.len() as u32..6)
    {
        assert_eq!(cell(i), NONE, "cell {i} of bucket {bucket} with {s:?}");
    }
    part
}

/// How many views were good, and how many were refused by each number.
#[derive(Default, Debug)]
struct Seen {
    good: u64,
    refused: [u64; 9],
}

fn compare(s: Settings, lent: &[u16], bucket: u32, seen: &mut Seen) {
    let at = format!(
        "{NAME}, SEED={:x}: bucket {bucket} of {} cells with {s:?}",
        seed::seed(),
        lent.len()
    );
    let number = table::view_check(s, lent, bucket);
    let before = lent.to_vec();
    let part = view(s, lent, bucket);
    assert_eq!(part, table::view(s, lent, bucket), "{at}");
    assert_eq!(lent, before, "{at}");
    let checked = Engine { null: false }.view_check(&s, lent, bucket);
    assert_eq!(checked, -i64::from(number), "{at}");
    match number {
        0 => seen.good += 1,
        number => seen.refused[number as usize] += 1,
    }
}

/// Every bucket of a table, and some numbers beyond.
fn every_bucket(mix: &mut Mix, s: Settings, lent: &[u16], seen: &mut Seen) {
    for bucket in 0..s.buckets.min(70) + 2 {
        compare(s, lent, bucket, seen);
    }
    for bucket in [s.buckets - 1, s.buckets, 65_535, 65_536, 1 << 30, u32::MAX] {
        compare(s, lent, bucket, seen);
    }
    let bucket = mix.below(s.buckets.into());
    compare(s, lent, bucket, seen);
}

const LARGEST: [Settings; 3] = [
    Settings::new(PLAIN, 16, 65_536, 0),
    Settings::new(RING, 12, 65_534, 0),
    Settings::new(MASKED, 4, 65_536, 0xff),
];

#[test]
fn values() {
    let mut mix = seed::mix(NAME);
    let mut seen = Seen::default();
    for s in LARGEST {
        let lent = cells(&mut mix, s, Cells::Full);
        every_bucket(&mut mix, s, &lent, &mut seen);
    }
    for _ in 0..300 * long() {
        let s = settings(&mut mix, 7);
        let kinds = [Cells::Empty, Cells::Few, Cells::Random(50), Cells::Full];
        let kind = one_of(&mut mix, &kinds);
        let lent = cells(&mut mix, s, kind);
        every_bucket(&mut mix, s, &lent, &mut seen);
        // A part of the table, none of it, and settings with some fault.
        for count in [0, 1, lent.len() - 1, lent.len() - 4] {
            compare(s, &lent[..count], 0, &mut seen);
        }
        let bad = spoil(&mut mix, s);
        for bucket in [0, 1, s.buckets - 1] {
            compare(bad, &lent, bucket, &mut seen);
        }
    }
    seed::tell(NAME, &format!(": {seen:?}"));
    assert!(seen.good > 1_000, "{seen:?}");
    for number in [1, 2, 3, 4, 5, 8] {
        assert!(seen.refused[number] > 10, "{seen:?}");
    }
}

/// A value that no other bucket has in the same place.
fn told(bucket: u32, i: u32) -> u16 {
    // Odd factors, so that each is a permutation of the 65,536 numbers.
    let factor = [1, 3, 40_503, 25_717][i as usize];
    (bucket * factor + i * 0x4000) as u16
}

/// Every bucket of tables of all sizes, by cells that tell where they stand.
#[test]
fn places_by_values() {
    let small = (0..=10).map(|log| Settings::new(PLAIN, 16, 1 << log, 0));
    for s in small.chain(LARGEST) {
        let lent: Vec<u16> = (0..4 * s.buckets).map(|i| told(i / 4, i % 4)).collect();
        for bucket in 0..s.buckets {
            let own = [0, 1, 2, 3].map(|i| told(bucket, i));
            assert_eq!(view(s, &lent, bucket), own, "bucket {bucket} with {s:?}");
        }
    }
}

/// In a table whose buckets are all equal one cell is changed, and the view of its bucket alone has it.
#[test]
fn places_by_change() {
    let mut mix = seed::mix("a cell that changes");
    for round in 0..60 * long() {
        let s = settings(&mut mix, 6);
        let value = one_of(&mut mix, &[0, 1, 0x7fff, 0xffff]);
        let mut lent = vec![value; 4 * s.buckets as usize];
        for changed in 0..lent.len() {
            lent[changed] = !value;
            let near = [changed.saturating_sub(4), changed, changed + 4].map(|i| i as u32 / 4);
            let other = mix.below(s.buckets.into());
            for bucket in near.into_iter().chain([other]).filter(|&b| b < s.buckets) {
                let mut own = [value; 4];
                if changed as u32 / 4 == bucket {
                    own[changed % 4] = !value;
                }
                let at = format!("SEED={:x}, round {round}: {s:?}", seed::seed());
                assert_eq!(
                    view(s, &lent, bucket),
                    own,
                    "{at}, cell {changed}, {bucket}"
                );
            }
            lent[changed] = value;
        }
    }
}
