//! What the tests are generated from.

use oracle::index::{Settings, MASKED, PLAIN, RING};
use oracle::requests::{Mix, SALTS};

/// How many times as long the runs are.
pub fn long() -> u32 {
    match std::env::var("HOLDLIST_LONG") {
        Ok(text) => text.parse().expect("HOLDLIST_LONG is a number"),
        Err(_) => 1,
    }
}

/// One of a list.
pub fn one_of<T: Copy>(mix: &mut Mix, list: &[T]) -> T {
    list[mix.below(list.len() as u64) as usize]
}

/// A mask that does work for so many buckets, which are four or more.
pub fn mask(mix: &mut Mix, buckets: u32) -> u32 {
    match mix.below(5) {
        0 => 1,
        1 => buckets - 2,
        2 => buckets / 2 - 1,
        3 => buckets / 2,
        _ => 1 + mix.below(u64::from(buckets) - 2),
    }
}

/// A salt, 0 in every other case.
pub fn salt(mix: &mut Mix) -> u64 {
    match mix.below(2) {
        0 => 0,
        _ => some_salt(mix),
    }
}

/// A salt that is not 0.
pub fn some_salt(mix: &mut Mix) -> u64 {
    match mix.below(4) {
        0 => one_of(mix, &SALTS),
        1 => 1 << mix.below(64),
        // A few low bits, as those of a number that counts seasons.
        2 => 1 + u64::from(mix.below(4_096)),
        _ => mix.draw().max(1),
    }
}

/// Good settings of at most 2^`log` buckets, from four on.
pub fn settings(mix: &mut Mix, log: u32) -> Settings {
    let salt = salt(mix);
    unsalted(mix, log).with_salt(salt)
}

fn width(mix: &mut Mix) -> u32 {
    match mix.below(3) {
        0 => one_of(mix, &[4, 12, 16]),
        _ => 4 + mix.below(13),
    }
}

fn unsalted(mix: &mut Mix, log: u32) -> Settings {
    let width = width(mix);
    let power = 1 << mix.below(u64::from(log) + 1);
    match mix.below(3) {
        PLAIN => Settings::new(PLAIN, width, power, 0),
        RING => {
            let half = 1 + mix.below(u64::from(power.max(2) / 2));
            Settings::new(RING, width, 2 * half, 0)
        }
        _ => {
            // One bucket or two have no mask that does work.
            let power = 4 << mix.below(u64::from(log) - 1);
            Settings::new(MASKED, width, power, mask(mix, power))
        }
    }
}

/// Settings of at most 2^`log` buckets whose mask does no work.
pub fn former_settings(mix: &mut Mix, log: u32) -> Settings {
    let (salt, width) = (salt(mix), width(mix));
    let buckets = 1 << mix.below(u64::from(log) + 1);
    let mask = one_of(mix, &[0, buckets - 1]);
    Settings::new(MASKED, width, buckets, mask).with_salt(salt)
}

/// A tag of the i-th kind, so that a history has repeats.
pub fn tag(i: u32) -> Vec<u8> {
    let mut mix = Mix(u64::from(i));
    let length = 1 + mix.below(64) as usize;
    mix.bytes(length)
}

/// How the cells of a table are drawn.
#[derive(Clone, Copy, Debug)]
pub enum Cells {
    Empty,
    /// So many of a hundred filled.
    Random(u32),
    /// All filled, with few values or with any.
    Few,
    Full,
}

/// Cells below 2^w.
pub fn cells(mix: &mut Mix, settings: Settings, kind: Cells) -> Vec<u16> {
    let top = (1u64 << settings.width) - 1;
    (0..4 * settings.buckets)
        .map(|_| match kind {
            Cells::Empty => 0,
            Cells::Random(load) if mix.below(100) >= load => 0,
            Cells::Few => (top as u16) - mix.below(3) as u16,
            _ => 1 + mix.below(top) as u16,
        })
        .collect()
}

/// Words that might be taken for marks of a search over so many buckets.
pub fn scratch(mix: &mut Mix, buckets: u32, words: usize) -> Vec<u32> {
    let (m, n) = (buckets, words as u32);
    match mix.below(7) {
        0 => vec![0; words],
        1 => vec![u32::MAX; words],
        2 => (0..n).collect(),
        3 => (0..n).map(|i| i % m).collect(),
        4 => (0..n).map(|i| i % m * 0x1_0001).collect(),
        5 => (0..n).map(|i| n - i).collect(),
        _ => (0..n).map(|_| mix.draw() as u32).collect(),
    }
}

/// Bytes added, taken away or changed.
pub fn damage(mix: &mut Mix, bytes: &mut Vec<u8>) {
    let n = bytes.len() as u64;
    match mix.below(9) {
        0 => bytes.truncate(mix.below(n + 1) as usize),
        1 => {
            let more = 1 + mix.below(3) as usize;
            bytes.extend(mix.bytes(more));
        }
        _ if n == 0 => {}
        // The head of a file is short, and its faults are many.
        2 | 3 => bytes[mix.below(n.min(8)) as usize] = mix.below(34) as u8,
        8 => bytes[0] = mix.below(66) as u8,
        4 => bytes[mix.below(n) as usize] = one_of(mix, &[0, 1, 15, 16, 0x80, 0xff]),
        5 => bytes[mix.below(n) as usize] ^= 1 << mix.below(8),
        _ => bytes[mix.below(n) as usize] = mix.draw() as u8,
    }
}

/// Settings with some fault, or more. No salt is one.
pub fn spoil(mix: &mut Mix, mut s: Settings) -> Settings {
    for _ in 0..1 + mix.below(3) {
        match mix.below(4) {
            0 => s.rule = one_of(mix, &[3, 4, 255, 256, 1 << 16, 1 << 31, u32::MAX]),
            1 => s.width = one_of(mix, &[0, 1, 3, 17, 18, 32, 256 + 12, u32::MAX]),
            2 => {
                s.buckets = match mix.below(3) {
                    0 => one_of(mix, &[0, 3, 5, 65_537, 65_538, 131_072, 1 << 31, u32::MAX]),
                    1 => s.buckets.wrapping_add(1),
                    _ => s.buckets.wrapping_sub(1),
                }
            }
            _ => {
                s.mask = match mix.below(4) {
                    0 => s.buckets,
                    1 => s.buckets.wrapping_add(1 + mix.below(9)),
                    // Under the masked rule it does no work.
                    2 => one_of(mix, &[0, s.buckets.wrapping_sub(1)]),
                    _ => one_of(mix, &[1, 65_535, 65_536, 1 << 31, u32::MAX]),
                }
            }
        }
    }
    s
}
