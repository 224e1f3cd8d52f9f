//! Which cells a hold fetches, and a forecast of one. Their contracts say nothing of that, so it is seen
//! from the outside: the cells after a bucket's first pair, and all buckets after it, lie in a page that
//! cannot be read.

use engine::boundary::Engine;
use engine::pages::{Pages, PAGE};
use oracle::index::{self, Settings, MASKED, PLAIN, RING};
use std::env;
use std::os::unix::process::ExitStatusExt;
use std::process::Command;

const ENGINE: Engine = Engine { null: false };
const BUCKETS: u32 = 64;
const SEGMENTATION_FAULT: i32 = 11;

/// A table of which cell `4b + 2` and all after it are out of reach, the others empty.
struct Guarded {
    s: Settings,
    table: *mut u16,
    bucket: u32,
    tags: Vec<[u8; 4]>,
    _pages: Pages,
}

impl Guarded {
    fn new(s: Settings, bucket: u32) -> Self {
        let pages = Pages::new(PAGE);
        let home = |tag: &[u8; 4]| index::entry(s, tag).unwrap().1 == bucket;
        Guarded {
            s,
            table: pages
                .end()
                .cast::<u16>()
                .wrapping_sub(4 * bucket as usize + 2),
            bucket,
            tags: (0..u32::MAX)
                .map(u32::to_be_bytes)
                .filter(home)
                .take(3)
                .collect(),
            _pages: pages,
        }
    }

    /// Holds the tag with that number, of which the bucket is the first candidate.
    fn hold(&self, i: usize) -> i64 {
        let mut scratch = [0; 2 * BUCKETS as usize];
        // A cell that is fetched from the closed page ends the program.
        unsafe {
            ENGINE.hold_at(
                &self.s,
                self.table,
                4 * BUCKETS as usize,
                &mut scratch,
                &self.tags[i],
            )
        }
    }

    /// Forecasts that hold.
    fn forecast(&self, i: usize) -> i64 {
        let mut scratch = [0; 2 * BUCKETS as usize];
        unsafe {
            ENGINE.forecast_at(
                &self.s,
                self.table,
                4 * BUCKETS as usize,
                &mut scratch,
                &self.tags[i],
            )
        }
    }

    fn cell(&self, i: u32) -> u16 {
        assert!(i < 4 * self.bucket + 2);
        unsafe { *self.table.wrapping_add(i as usize) }
    }
}

#[test]
fn no_cell_after_the_first_pair_with_an_empty_one_is_fetched() {
    for (rule, mask) in [(PLAIN, 0), (RING, 0), (MASKED, 0x15)] {
        for bucket in [0, 17, 31] {
            let s = Settings::new(rule, 16, BUCKETS, mask);
            let lent = Guarded::new(s, bucket);
            let mut want = vec![0; 4 * bucket as usize + 2];
            for i in 0..2 {
                assert_eq!(lent.forecast(i), 0, "tag {i} in bucket {bucket} with {s:?}");
                assert_eq!(lent.hold(i), 0, "tag {i} in bucket {bucket} with {s:?}");
                want[4 * bucket as usize + i] = index::entry(s, &lent.tags[i]).unwrap().0;
                let cells: Vec<u16> = (0..want.len() as u32).map(|c| lent.cell(c)).collect();
                assert_eq!(cells, want, "after tag {i} in bucket {bucket} with {s:?}");
            }
        }
    }
}

/// A third entry has to look at the second pair: this one is killed.
#[test]
#[ignore]
fn third_hold() {
    let lent = Guarded::new(Settings::new(PLAIN, 16, BUCKETS, 0), 17);
    for i in 0..3 {
        lent.hold(i);
    }
}

/// And so has its forecast.
#[test]
#[ignore]
fn third_forecast() {
    let lent = Guarded::new(Settings::new(PLAIN, 16, BUCKETS, 0), 17);
    for i in 0..2 {
        lent.hold(i);
    }
    lent.forecast(2);
}

#[test]
fn a_cell_that_is_fetched_shows() {
    for name in ["third_hold", "third_forecast"] {
        let status = Command::new(env::current_exe().unwrap())
            .args(["--ignored", "--exact", name])
            .output()
            .unwrap()
            .status;
        assert_eq!(
            status.signal(),
            Some(SEGMENTATION_FAULT),
            "{name}: {status}"
        );
    }
}
