use super::*;
use crate::Settings;

#[test]
fn every_list_has_a_load_and_none_is_above_its_cells() {
    for (rule, widths) in LOADS.iter().enumerate() {
        for loads in widths {
            // the ring has two buckets at least, and the masked rule four
            let (none, loads) = loads.split_at(rule);
            assert!(none.iter().all(|&load| load == 0));
            assert!(loads.iter().all(|&load| 0 < load && load <= 1000));
        }
    }
}

/// What is expected of a list is what the least of those that were measured took. At a power of two it
/// is below that by no more than the rounding to a thousandth of the cells.
#[test]
fn every_list_of_the_data_took_what_is_expected_of_it() {
    let mut rows = include_str!("../../../../docs/evidence/first_refusal.csv").lines();
    let names: Vec<_> = rows.next().unwrap().split(',').collect();
    let mut powers = 0;
    for row in rows {
        let cells: Vec<_> = row.split(',').collect();
        let cell = |name| cells[names.iter().position(|&n| n == name).unwrap()];
        let number = |name| cell(name).parse::<u32>().unwrap();
        if cell("tags") != "differ" {
            continue;
        }
        let rules = ["plain", "ring", "masked"];
        let rule = rules.iter().position(|&r| r == cell("rule")).unwrap();
        let (buckets, least) = (number("buckets"), number("least") as usize);
        let expected = entries(rule as u32, number("width"), buckets);
        assert!(expected <= least, "{row}");
        if buckets.is_power_of_two() {
            assert!(least - expected <= 4 * buckets as usize / 1000 + 1, "{row}");
            powers += 1;
        }
    }
    // of 13 widths
    assert_eq!(powers, 13 * (17 + 16 + 15));
}

#[test]
fn between_two_powers_of_two_no_load_is_above_theirs() {
    for (width, loads) in (4..=16).zip(&LOADS[1]) {
        for (k, ends) in loads.windows(2).enumerate().skip(1) {
            let [lower, upper] = [1 << k, 2 << k];
            let ends = [u32::from(ends[0]), u32::from(ends[1])];
            assert_eq!([lower, upper].map(|m| permille(1, width, m)), ends);
            let lowest = ends[0].min(ends[1]);
            for m in (lower + 2..upper).step_by(2) {
                let between = permille(1, width, m);
                assert_eq!(between, permille(1, width, lower + 2));
                assert!(between < lowest || width > 8 && between == lowest);
            }
        }
    }
}

/// By the offsets themselves: buckets of the first block are in one part if steps from offset to
/// offset lead from one to the other.
#[test]
fn a_ring_falls_into_the_parts_that_its_offsets_leave() {
    fn gcd(a: u32, b: u32) -> u32 {
        match b {
            0 => a,
            _ => gcd(b, a % b),
        }
    }
    for width in [4, 8] {
        let halves = (1..=500).chain([2_141, 4_282, 6_423, 18_367, 32_768]);
        for half in halves {
            let s = Settings::ring(width, 2 * half);
            let first = s.offset(1).unwrap();
            let steps = (2..1 << width).map(|p| s.offset(p).unwrap().abs_diff(first));
            let left = steps.fold(half, gcd);
            assert_eq!(parts(1, width, 2 * half), (left, width), "{s:?}");
            for rule in [0, 2] {
                assert_eq!(parts(rule, width, 2 * half), (1, width));
            }
        }
    }
}

#[test]
fn a_ring_is_whole_where_offsets_have_every_remainder() {
    for width in 9..=16 {
        for shared in [1, 3, 5, 15, 29, 87, 145, 435, 2_141, 6_423, 18_367] {
            // with as many buckets in a block an offset is its remainder
            let s = Settings::ring(width, 2 * shared);
            let mut offsets: Vec<_> = (1..=u16::MAX >> (16 - width))
                .map(|p| s.offset(p).unwrap())
                .collect();
            offsets.sort_unstable();
            offsets.dedup();
            let whole = parts(1, width, 2 * shared) == (1, width);
            assert_eq!(whole, offsets.len() == shared as usize, "{s:?}");
            // with the loads of width 4 it has more offsets than the 15 of that width
            let narrow = parts(1, width, 2 * shared) == (1, 4);
            assert!(!narrow || offsets.len() > 30, "{s:?}");
        }
    }
}
