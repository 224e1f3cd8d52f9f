//! Histories of calls on one table, with wrong lengths and bad settings in between.

use engine::make::{cells, damage, long, mask, one_of, salt, scratch, settings, spoil, tag, Cells};
use engine::pair::{Call, Lend, Pair};
use oracle::holdfile::HEAD;
use oracle::index::{Settings, MASKED, PLAIN, RING};
use oracle::requests::Mix;
use oracle::table;

/// More cells, words and bytes than the settings ask for, to be lent by mistake.
const SPARE: usize = 8;

/// The most bytes that a table has in either form.
fn most_bytes(s: Settings) -> usize {
    HEAD + 9 * s.buckets as usize
}

fn open(pair: &mut Pair, s: Settings, bytes: usize) {
    let lend = Lend::of(s);
    pair.size(lend.cells + SPARE, lend.words + SPARE, bytes + SPARE);
}

/// Fills scratch with what might be taken for marks of a search.
fn dirty(pair: &mut Pair, s: Settings) {
    let words = Lend::of(s).words + SPARE;
    let words = scratch(&mut pair.mix, s.buckets, words);
    pair.set_scratch(&words);
}

/// A length near the good one.
fn near(mix: &mut Mix, good: usize) -> usize {
    match mix.below(6) {
        0 => 0,
        1 => good.saturating_sub(1),
        2 => good.saturating_sub(4),
        3 => good + 1,
        4 => good + 4,
        _ => mix.below(good as u64 + 1) as usize,
    }
}

/// What is lent to a call, with some fault now and then.
fn lent(mix: &mut Mix, s: Settings) -> Lend {
    let mut lend = Lend::of(s);
    if mix.below(4) == 0 {
        lend.words += mix.below(SPARE as u64 + 1) as usize;
    }
    if mix.below(12) != 0 {
        return lend;
    }
    for _ in 0..1 + mix.below(2) {
        match mix.below(4) {
            0 => lend.settings = spoil(mix, s),
            // The table of one list with the salt of another, or of none.
            1 => lend.settings.salt = salt(mix),
            2 => lend.cells = near(mix, lend.cells).min(4 * s.buckets as usize + SPARE),
            _ => lend.words = mix.below(lend.words as u64 + 1) as usize,
        }
    }
    lend
}

/// A tag of one of so many kinds, now and then too short or too long.
fn some_tag(mix: &mut Mix, kinds: u64) -> Vec<u8> {
    match mix.below(40) {
        0 => vec![],
        1 => mix.bytes(65),
        2 => mix.bytes(66),
        3 => {
            let length = mix.below(67) as usize;
            mix.bytes(length)
        }
        _ => tag(mix.below(kinds)),
    }
}

/// Writes the table in one of the forms, and reads it or what damage left of it.
fn through_bytes(pair: &mut Pair, s: Settings) {
    let (write, read) = match pair.mix.below(2) {
        0 => (Call::FileWrite, Call::FileRead),
        _ => (Call::PackedWrite, Call::PackedRead),
    };
    let most = most_bytes(s) + SPARE;
    let lend = lent(&mut pair.mix, s).room(most);
    let told = pair.run(lend, Call::FileLength);
    let length = pair.run(lend, write);
    if let Call::FileWrite = write {
        assert_eq!(length, told);
    }
    if length < 0 {
        return;
    }
    let length = length as usize;
    let room = match pair.mix.below(3) {
        0 => length,
        1 => length.saturating_sub(1),
        _ => pair.mix.below(length as u64 + 1) as usize,
    };
    pair.run(lend.room(room), write);
    let mut bytes = pair.out()[..length].to_vec();
    if pair.mix.below(2) == 0 {
        for _ in 0..1 + pair.mix.below(2) {
            damage(&mut pair.mix, &mut bytes);
        }
        bytes.truncate(most);
    }
    pair.set_input(0, &bytes);
    let lend = lent(&mut pair.mix, s).input(bytes.len());
    pair.run(lend, read);
}

fn step(pair: &mut Pair, s: Settings, holds: u32, kinds: u64) {
    let mix = &mut pair.mix;
    let lend = lent(mix, s);
    let tag = some_tag(mix, kinds);
    match mix.below(100) {
        n if n < holds => {
            if mix.below(8) == 0 {
                dirty(pair, s);
            }
            match pair.mix.below(4) {
                // With whatever the forecast left in scratch, or something else.
                n if n < 2 => {
                    let told = pair.run(lend, Call::Forecast(&tag));
                    if n == 0 {
                        dirty(pair, s);
                    }
                    assert_eq!(pair.run(lend, Call::Hold(&tag)), told);
                }
                _ => {
                    pair.run(lend, Call::Hold(&tag));
                }
            }
        }
        n if n < 75 => {
            pair.run(lend, Call::Release(&tag));
        }
        75..=89 => {
            pair.run(lend, Call::Lookup(&tag));
        }
        90..=92 => {
            let bucket = mix.below(u64::from(s.buckets) + 1);
            pair.run(lend, Call::View(bucket));
        }
        93 => {
            let bucket = one_of(mix, &[s.buckets, 65_536, 1 << 31, u32::MAX]);
            pair.run(lend, Call::View(bucket));
        }
        94 => {
            pair.run(lend, Call::Fingerprint(&tag));
            pair.run(lend, Call::Home(&tag));
        }
        95 => {
            let (value, bucket) = (mix.draw() as u16, mix.below(u64::from(s.buckets) + 1));
            pair.run(lend, Call::Candidates(value, bucket));
        }
        96 | 97 => through_bytes(pair, s),
        98 if mix.below(4) == 0 => {
            pair.run(lend, Call::Clear);
        }
        // A cell that no hold wrote.
        99 if mix.below(4) == 0 => {
            let (cell, value) = (mix.below(4 * u64::from(s.buckets)), mix.draw() as u16);
            pair.set_table(cell as usize, &[value]);
        }
        _ => {
            pair.run(lend, Call::Check);
        }
    }
}

/// Holds and releases prevail in turn, so that the load goes up and down.
fn history(pair: &mut Pair, s: Settings, steps: u32) {
    let cells = 4 * s.buckets;
    let kinds = u64::from(one_of(&mut pair.mix, &[cells / 3 + 1, 2 * cells, 1 << 20]));
    pair.run(Lend::of(s), Call::Clear);
    for i in 0..steps {
        let holds = if i / cells.min(steps) % 3 < 2 { 66 } else { 25 };
        step(pair, s, holds, kinds);
    }
}

#[test]
fn small() {
    let mut pair = Pair::new("small histories");
    for _ in 0..1_500 * long() {
        let s = settings(&mut pair.mix, 5);
        open(&mut pair, s, most_bytes(s));
        dirty(&mut pair, s);
        let steps = 60 + 12 * s.buckets;
        history(&mut pair, s, steps);
    }
    pair.done(&[1, 2, 3, 4, 5, 6, 7, 8, 9, 11, 12, 13, 14, 15, 16, 17, 19]);
}

/// Tables that no history made, mostly full, with cells of 2^w and above.
#[test]
fn any_cells() {
    let mut pair = Pair::new("any cells");
    for _ in 0..4_000 * long() {
        let s = settings(&mut pair.mix, 5);
        open(&mut pair, s, 0);
        let count = 4 * s.buckets;
        let few = pair.mix.below(3) == 0;
        let mut table: Vec<u16> = (0..count)
            .map(|_| match few {
                true => 1 + pair.mix.below(3) as u16,
                false => (pair.mix.draw() as u16).max(1),
            })
            .collect();
        for _ in 0..pair.mix.below(4) {
            table[pair.mix.below(count.into()) as usize] = 0;
        }
        pair.set_table(0, &table);
        for i in 0..20 {
            if i % 5 == 0 {
                dirty(&mut pair, s);
            }
            let tag = some_tag(&mut pair.mix, 1 << 20);
            let lend = lent(&mut pair.mix, s);
            pair.run(lend, Call::Lookup(&tag));
            let told = pair.run(lend, Call::Forecast(&tag));
            assert_eq!(pair.run(lend, Call::Hold(&tag)), told);
            if i % 3 == 0 {
                pair.run(lend, Call::Release(&tag));
            }
        }
    }
    pair.done(&[1, 2, 3, 4, 5, 6, 7, 9]);
}

#[test]
fn middle() {
    let mut pair = Pair::new("middle histories");
    for _ in 0..40 * long() {
        let mut s = settings(&mut pair.mix, 10);
        if s.buckets < 64 {
            s.buckets *= 32;
        }
        open(&mut pair, s, most_bytes(s));
        history(&mut pair, s, 16 * s.buckets.min(200));
        // From full on.
        let full = cells(&mut pair.mix, s, Cells::Random(99));
        pair.set_table(0, &full);
        dirty(&mut pair, s);
        history_from_here(&mut pair, s, 600);
    }
    pair.done(&[1, 2, 3, 4, 5, 6, 7, 8, 9]);
}

fn history_from_here(pair: &mut Pair, s: Settings, steps: u32) {
    for i in 0..steps {
        let holds = if i % 100 < 70 { 70 } else { 20 };
        step(pair, s, holds, 1 << 20);
    }
}

/// The largest tables, filled by the other implementation, then call by call.
#[test]
fn large() {
    let mut pair = Pair::new("large histories");
    let mut all = vec![
        Settings::new(PLAIN, 16, 65_536, 0),
        Settings::new(PLAIN, 12, 4_096, 0),
        Settings::new(RING, 16, 65_536, 0),
        Settings::new(RING, 13, 65_534, 0),
        Settings::new(RING, 12, 4_094, 0),
        Settings::new(MASKED, 16, 65_536, 0x00ff),
        Settings::new(MASKED, 12, 65_536, mask(&mut pair.mix, 65_536)),
        Settings::new(MASKED, 12, 4_096, 1),
        Settings::new(RING, 12, 65_534, 0).with_salt(0x0123_4567_89ab_cdef),
    ];
    all.extend((0..4 * long()).map(|_| settings(&mut pair.mix, 16)));
    for s in all {
        let count = 4 * s.buckets as usize;
        let mut table = vec![0; count];
        let mut scratch = vec![0; count / 2];
        open(&mut pair, s, most_bytes(s));
        for percent in [50, 94, 97, 100] {
            let mut filled = table.iter().filter(|&&cell| cell != 0).count();
            while 100 * filled < percent * count {
                let tag = pair.mix.draw().to_le_bytes();
                if table::hold(s, &mut table, &mut scratch, &tag).is_err() {
                    break;
                }
                filled += 1;
            }
            pair.set_table(0, &table);
            dirty(&mut pair, s);
            history_from_here(&mut pair, s, 250 * long());
        }
        // Full of entries that no hold put there, but for a cell or two.
        for empty in 0..2 {
            let mut full = cells(&mut pair.mix, s, Cells::Full);
            for _ in 0..empty {
                full[pair.mix.below(count as u64) as usize] = 0;
            }
            pair.set_table(0, &full);
            for _ in 0..4 {
                let tag = tag(pair.mix.draw() as u32);
                let told = pair.run(Lend::of(s), Call::Forecast(&tag));
                assert_eq!(pair.run(Lend::of(s), Call::Hold(&tag)), told);
            }
        }
    }
    pair.done(&[1, 2, 3, 4, 5, 6, 7, 9]);
}
