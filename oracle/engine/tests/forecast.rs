//! Forecasts: what a hold would answer, and how long the hold file will be. Each is held to the other
//! implementation and to the real call made next, on the same table with the same settings, tag and
//! length of scratch.

use engine::boundary::Engine;
use engine::make::{
    cells, long, mask, one_of, salt, scratch, settings, some_salt, spoil, tag, Cells,
};
use engine::pages::Guarded;
use engine::pair::{Call, Lend, Pair};
use engine::seed;
use oracle::holdfile::{self, HEAD};
use oracle::index::{Settings, MASKED, PLAIN, RING};
use oracle::requests::{masks, Mix};
use oracle::table;
use std::collections::HashSet;
use std::env;
use std::os::unix::process::ExitStatusExt;
use std::process::Command;

/// More cells, words and bytes than are asked for.
const SPARE: usize = 8;

/// What forecasts of good inputs said, so that a run which shows nothing is seen.
#[derive(Default, Debug)]
struct Told {
    at_once: u64,
    one_move: u64,
    more_moves: u64,
    full: u64,
    most: i64,
}

impl Told {
    fn add(&mut self, answer: i64) {
        match answer {
            0 => self.at_once += 1,
            1 => self.one_move += 1,
            2.. => self.more_moves += 1,
            _ => {
                assert_eq!(answer, -9);
                self.full += 1;
            }
        }
        self.most = self.most.max(answer);
    }

    fn each_above(&self, count: u64) {
        let all = [self.at_once, self.one_move, self.more_moves, self.full];
        assert!(all.iter().all(|&n| n > count), "{self:?}");
    }
}

/// Puts other words into scratch, all of it.
fn stir(pair: &mut Pair, s: Settings) {
    let count = pair.scratch().len();
    let words = scratch(&mut pair.mix, s.buckets.max(1), count);
    pair.set_scratch(&words);
}

/// Forecasts a hold, which changes no cell, and makes it with other words in scratch.
fn forecast_and_hold(pair: &mut Pair, lend: Lend, tag: &[u8]) -> i64 {
    let before = pair.table().to_vec();
    stir(pair, lend.settings);
    let words = pair.scratch().to_vec();
    let told = pair.run(lend, Call::Forecast(tag));
    assert!(pair.table() == before, "{lend:?} {tag:?}");
    // Refused before it may use scratch.
    assert!(!(-7..=-1).contains(&told) || pair.scratch() == words);
    stir(pair, lend.settings);
    let answer = pair.run(lend, Call::Hold(tag));
    assert_eq!(answer, told, "{lend:?} {tag:?}");
    told
}

/// Asks for the length, and writes the file with just enough room, with more, and with too little.
fn length_and_file(pair: &mut Pair, lend: Lend) -> i64 {
    let told = pair.run(lend, Call::FileLength);
    if told < 0 {
        for room in [0, lend.room] {
            assert_eq!(pair.run(lend.room(room), Call::FileWrite), told, "{lend:?}");
        }
        return told;
    }
    let length = told as usize;
    // Whether there is room has no part in the length.
    for room in [0, length - 1] {
        assert_eq!(pair.run(lend.room(room), Call::FileLength), told);
        let before = pair.out().to_vec();
        assert_eq!(pair.run(lend.room(room), Call::FileWrite), -16, "{lend:?}");
        assert!(pair.out() == before, "{lend:?}");
    }
    for room in [length, length + 1, length + SPARE] {
        let after = pair.out()[length..].to_vec();
        assert_eq!(pair.run(lend.room(room), Call::FileWrite), told, "{lend:?}");
        assert!(pair.out()[length..] == after, "{lend:?}");
    }
    told
}

// ── holds ──

/// Cells for a forecast: any values or those that a hold can write, at a load of any percent or with a
/// few cells empty.
fn some_cells(mix: &mut Mix, s: Settings) -> Vec<u16> {
    let count = 4 * u64::from(s.buckets);
    let mut list = match mix.below(3) {
        0 => cells(mix, s, Cells::Few),
        1 => cells(mix, s, Cells::Full),
        _ => (0..count).map(|_| (mix.draw() as u16).max(1)).collect(),
    };
    match mix.below(3) {
        0 => {
            let load = one_of(mix, &[0, 25, 50, 75, 90, 95, 98]);
            for cell in &mut list {
                if mix.below(100) >= load {
                    *cell = 0;
                }
            }
        }
        _ => {
            for _ in 0..mix.below(5) {
                list[mix.below(count) as usize] = 0;
            }
        }
    }
    list
}

/// Tables of any cells, at every load and under each rule.
#[test]
fn any_table() {
    let mut pair = Pair::new("forecasts in any table");
    let mut told: [Told; 3] = Default::default();
    for _ in 0..8_000 * long() {
        let s = settings(&mut pair.mix, 6);
        let mut lend = Lend::of(s);
        pair.size(lend.cells, lend.words + SPARE, 0);
        let table = some_cells(&mut pair.mix, s);
        pair.set_table(0, &table);
        for _ in 0..4 {
            lend.words = Lend::of(s).words + pair.mix.below(SPARE as u64 + 1) as usize;
            let tag = tag(pair.mix.draw() as u32);
            told[s.rule as usize].add(forecast_and_hold(&mut pair, lend, &tag));
        }
    }
    seed::tell("forecasts in any table", &format!(": {told:?}"));
    for rule in told {
        rule.each_above(500);
    }
    pair.done(&[9]);
}

/// A forecast changes nothing that another would see: many of them in a row, and again backwards with
/// other words in scratch, before the holds.
#[test]
fn one_after_another() {
    let mut pair = Pair::new("forecasts in a row");
    let mut told = Told::default();
    for _ in 0..400 * long() {
        let s = settings(&mut pair.mix, 5);
        let lend = Lend::of(s);
        pair.size(lend.cells, lend.words, 0);
        let table = some_cells(&mut pair.mix, s);
        pair.set_table(0, &table);
        let tags: Vec<Vec<u8>> = (0..20).map(|_| tag(pair.mix.draw() as u32)).collect();
        let answers: Vec<i64> = tags
            .iter()
            .map(|tag| pair.run(lend, Call::Forecast(tag)))
            .collect();
        stir(&mut pair, s);
        for (tag, &answer) in tags.iter().zip(&answers).rev() {
            assert_eq!(pair.run(lend, Call::Forecast(tag)), answer, "{s:?}");
        }
        assert!(pair.table() == table, "{s:?}");
        // Each hold from the same table.
        for (tag, &answer) in tags.iter().zip(&answers) {
            assert_eq!(pair.run(lend, Call::Hold(tag)), answer, "{s:?}");
            pair.set_table(0, &table);
            told.add(answer);
        }
    }
    told.each_above(100);
    pair.done(&[9]);
}

/// Tags that are held until there is no more room for them.
#[test]
fn known_answers() {
    let mut pair = Pair::new("known forecasts");
    for (s, room) in [
        (Settings::new(PLAIN, 12, 1, 0), 4),
        (Settings::new(RING, 12, 2, 0), 8),
        (Settings::new(RING, 4, 2, 0).with_salt(1), 8),
    ] {
        let lend = Lend::of(s);
        pair.size(lend.cells, lend.words, 0);
        assert_eq!(pair.run(lend, Call::Clear), 0);
        for _ in 0..room {
            assert_eq!(forecast_and_hold(&mut pair, lend, b"tag"), 0, "{s:?}");
        }
        assert_eq!(forecast_and_hold(&mut pair, lend, b"tag"), -9, "{s:?}");
        assert_eq!(pair.run(lend, Call::Release(b"tag")), 1);
        assert_eq!(forecast_and_hold(&mut pair, lend, b"tag"), 0, "{s:?}");
    }
    pair.done(&[9]);
}

/// Every choice of faults at once: the first in the order of a hold's checks, with scratch as it was up
/// to the tag's.
#[test]
fn faults_at_once() {
    let mut pair = Pair::new("forecasts with faults");
    pair.size(64, 64, 0);
    for (s, number) in [
        (Settings::new(3, 17, 7, 9), 1),
        (Settings::new(3, 12, 8, 0), 1),
        (Settings::new(u32::MAX, 3, 0, 1), 1),
        (Settings::new(PLAIN, 3, 7, 9), 2),
        (Settings::new(RING, 17, 8, 0), 2),
        (Settings::new(MASKED, 0, 8, 0), 2),
        (Settings::new(PLAIN, 12, 0, 9), 3),
        (Settings::new(PLAIN, 12, 65_537, 0), 3),
        (Settings::new(RING, 12, 7, 0), 3),
        (Settings::new(MASKED, 12, 6, 2), 3),
        (Settings::new(PLAIN, 12, 8, 1), 4),
        (Settings::new(RING, 4, 6, 6), 4),
        (Settings::new(MASKED, 16, 8, 8), 4),
        (Settings::new(MASKED, 16, 8, 7), 4),
        (Settings::new(MASKED, 16, 8, 0), 4),
        (Settings::new(MASKED, 16, 2, 1), 4),
        (Settings::new(PLAIN, 12, 8, 0), 0),
        (Settings::new(PLAIN, 4, 1, 0), 0),
        (Settings::new(RING, 4, 6, 0), 0),
        (Settings::new(RING, 16, 2, 0), 0),
        (Settings::new(MASKED, 16, 8, 5), 0),
    ] {
        let s = s.with_salt(salt(&mut pair.mix));
        // What the settings ask for, where that can be lent at all.
        let good = 4 * s.buckets.min(8) as usize;
        for cells in [good, 0, good.saturating_sub(1), good + 1, good + 4, 64] {
            for words in [good / 2, good, 64, 0, (good / 2).saturating_sub(1)] {
                for length in [1, 64, 0, 65, 256, 1_000] {
                    let tag = pair.mix.bytes(length);
                    let lend = Lend {
                        cells,
                        words,
                        ..Lend::of(s)
                    };
                    for cell in [1, 0] {
                        pair.set_table(0, &[cell; 64]);
                        let expected = match number {
                            0 if cells != good => -5,
                            0 if words < good / 2 => -6,
                            0 if !(1..=64).contains(&length) => -7,
                            0 if cell == 1 => -9,
                            number => -number,
                        };
                        let told = forecast_and_hold(&mut pair, lend, &tag);
                        assert_eq!(told, expected, "{lend:?}, a tag of {length}");
                    }
                }
            }
        }
    }
    pair.done(&[1, 2, 3, 4, 5, 6, 7, 9]);
}

/// Any faults, in tables of any cells.
#[test]
fn any_faults() {
    let mut pair = Pair::new("forecasts with any faults");
    for _ in 0..20_000 * long() {
        let s = settings(&mut pair.mix, 4);
        let mut lend = Lend::of(s);
        pair.size(lend.cells + SPARE, lend.words + SPARE, 0);
        let table = some_cells(&mut pair.mix, s);
        pair.set_table(0, &table);
        let mix = &mut pair.mix;
        if mix.below(4) == 0 {
            lend.settings = spoil(mix, s);
        }
        if mix.below(4) == 0 {
            lend.cells = mix.below((lend.cells + SPARE) as u64 + 1) as usize;
        }
        if mix.below(3) == 0 {
            lend.words = mix.below((lend.words + SPARE) as u64 + 1) as usize;
        }
        let length = match mix.below(3) {
            0 => one_of(mix, &[0, 65, 66, 128, 256, 1_000]),
            1 => one_of(mix, &[1, 64]),
            _ => mix.below(70) as usize,
        };
        let tag = mix.bytes(length);
        forecast_and_hold(&mut pair, lend, &tag);
    }
    pair.done(&[1, 2, 3, 4, 5, 6, 7, 9]);
}

/// Lists from nothing to full and down again, over and over: each hold is forecast, and so is the file
/// now and then. A hold that is accepted makes the file two bytes longer.
#[test]
fn histories() {
    let mut pair = Pair::new("forecasts along histories");
    let mut all = vec![
        Settings::new(PLAIN, 16, 256, 0),
        Settings::new(PLAIN, 4, 64, 0),
        Settings::new(RING, 12, 254, 0),
        Settings::new(RING, 5, 34, 0).with_salt(1 << 40),
        Settings::new(MASKED, 12, 512, 0x55),
        Settings::new(MASKED, 16, 256, 1),
        Settings::new(MASKED, 7, 32, 1).with_salt(7),
    ];
    all.extend((0..4 * long()).map(|_| settings(&mut pair.mix, 8)));
    let mut told: [Told; 3] = Default::default();
    let mut released = 0;
    for s in all {
        let lend = Lend::of(s).room(HEAD + 9 * s.buckets as usize + SPARE);
        pair.size(lend.cells, lend.words, lend.room);
        assert_eq!(pair.run(lend, Call::Clear), 0);
        let mut length = pair.run(lend, Call::FileLength);
        let kinds = u64::from(one_of(&mut pair.mix, &[8 * s.buckets, 1 << 30]));
        let mut held = vec![];
        for _ in 0..3 {
            // Some more after the first that has no room.
            let mut full = 0;
            while full < 30 {
                let tag = tag(pair.mix.below(kinds));
                let answer = forecast_and_hold(&mut pair, lend, &tag);
                told[s.rule as usize].add(answer);
                match answer {
                    -9 => full += 1,
                    _ => {
                        length += 2;
                        held.push(tag);
                    }
                }
                if pair.mix.below(20) == 0 {
                    assert_eq!(length_and_file(&mut pair, lend), length, "{s:?}");
                } else {
                    assert_eq!(pair.run(lend, Call::FileLength), length, "{s:?}");
                }
            }
            pair.mix.shuffle(&mut held);
            let kept = pair.mix.below(held.len() as u64) as usize;
            for tag in held.split_off(kept) {
                assert_eq!(pair.run(lend, Call::Release(&tag)), 1, "{s:?}");
                length -= 2;
                released += 1;
                assert_eq!(pair.run(lend, Call::FileLength), length, "{s:?}");
            }
        }
    }
    seed::tell("forecasts along histories", &format!(": {told:?}"));
    for rule in told {
        rule.each_above(40);
    }
    assert!(released > 1_000, "{released}");
    pair.done(&[9, 16]);
}

/// The largest tables, close to full, and full but for a cell or two, where a search goes far.
#[test]
fn large() {
    let mut pair = Pair::new("forecasts in large tables");
    let mut told = Told::default();
    for s in [
        Settings::new(PLAIN, 16, 65_536, 0),
        Settings::new(RING, 16, 65_536, 0).with_salt(3),
        Settings::new(RING, 13, 65_534, 0),
        Settings::new(MASKED, 16, 65_536, 0x0ff0),
        Settings::new(MASKED, 12, 65_536, mask(&mut pair.mix, 65_536)),
        Settings::new(PLAIN, 12, 4_096, 0),
    ] {
        let lend = Lend::of(s).room(HEAD + 9 * s.buckets as usize + SPARE);
        pair.size(lend.cells, lend.words, lend.room);
        let mut table = vec![0; lend.cells];
        let mut scratch = vec![0; lend.words];
        let mut filled = 0;
        for percent in [50, 90, 95, 98] {
            while 100 * filled < percent * lend.cells {
                let tag = pair.mix.draw().to_le_bytes();
                if table::hold(s, &mut table, &mut scratch, &tag).is_err() {
                    break;
                }
                filled += 1;
            }
            pair.set_table(0, &table);
            length_and_file(&mut pair, lend);
            for _ in 0..12 * long() {
                let tag = pair.mix.bytes(9);
                told.add(forecast_and_hold(&mut pair, lend, &tag));
            }
        }
        for empty in 0..3 {
            let mut full = cells(&mut pair.mix, s, Cells::Full);
            for _ in 0..empty {
                full[pair.mix.below(lend.cells as u64) as usize] = 0;
            }
            pair.set_table(0, &full);
            length_and_file(&mut pair, lend);
            for _ in 0..2 {
                let tag = pair.mix.bytes(9);
                told.add(forecast_and_hold(&mut pair, lend, &tag));
            }
        }
    }
    seed::tell("forecasts in large tables", &format!(": {told:?}"));
    told.each_above(8);
    assert!(told.most > 4, "{told:?}");
    pair.done(&[9, 16]);
}

// ── files ──

/// How many bytes the map and the fields have, by the rules of the file.
fn head(s: Settings) -> usize {
    let fields = [
        (s.rule != 0, 1),
        (s.width != 12, 1),
        (s.buckets != 4_096, 2),
        (s.rule == 2, 2),
        (s.salt != 0, 8),
    ];
    let there = fields.iter().filter(|&&(there, _)| there);
    1 + there.map(|&(_, bytes)| bytes).sum::<usize>()
}

/// Every width and every shape of a header, with cells of every load and cells of 2^w and above.
#[test]
fn lengths() {
    let mut pair = Pair::new("file lengths");
    let (mut maps, mut heads) = (HashSet::new(), HashSet::new());
    for rule in [PLAIN, RING, MASKED] {
        for width in 4..=16 {
            for buckets in [1, 2, 4, 6, 16, 4_096, 65_536] {
                if buckets == 65_536 && ![4, 12, 16].contains(&width) {
                    continue;
                }
                let masks = match rule {
                    MASKED if buckets > 16 => vec![1],
                    MASKED => masks(buckets),
                    _ => vec![0],
                };
                for mask in masks {
                    for salt in [0, some_salt(&mut pair.mix)] {
                        let s = Settings::new(rule, width, buckets, mask).with_salt(salt);
                        if s.check().is_ok() {
                            maps.insert(lengths_of(&mut pair, s));
                            heads.insert(head(s));
                        }
                    }
                }
            }
        }
    }
    // Each rule with any of width, bucket count and salt.
    assert_eq!(maps.len(), 3 * 8, "{maps:02x?}");
    assert!(heads.contains(&1) && heads.contains(&HEAD), "{heads:?}");
    pair.done(&[5, 16, 17]);
}

/// The lengths under these settings, and the first byte of their files.
fn lengths_of(pair: &mut Pair, s: Settings) -> u8 {
    let m = s.buckets as usize;
    let lend = Lend::of(s).room(HEAD + 9 * m + SPARE);
    pair.size(lend.cells + SPARE, 0, lend.room);
    for kind in [
        Cells::Empty,
        Cells::Random(3),
        Cells::Random(50),
        Cells::Random(97),
        Cells::Full,
    ] {
        let table = cells(&mut pair.mix, s, kind);
        pair.set_table(0, &table);
        let filled = table.iter().filter(|&&cell| cell != 0).count();
        let length = length_and_file(pair, lend);
        assert_eq!(length as usize, head(s) + m + 2 * filled, "{s:?}");
        // A table of another length, before a cell that is too wide.
        for cells in [0, lend.cells - 1, lend.cells + 1, lend.cells + 4] {
            let wrong = Lend { cells, ..lend };
            assert_eq!(length_and_file(pair, wrong), -5, "{s:?}");
        }
        if s.width == 16 {
            continue;
        }
        let any = pair.mix.below(lend.cells as u64) as usize;
        for cell in [0, lend.cells - 1, any] {
            for value in [1 << s.width, 0x8000, 0xffff] {
                pair.set_table(cell, &[value]);
                assert_eq!(length_and_file(pair, lend), -17, "{s:?} {cell}");
                let wrong = Lend {
                    cells: lend.cells + 1,
                    ..lend
                };
                assert_eq!(pair.run(wrong, Call::FileLength), -5);
                pair.set_table(cell, &table[cell..=cell]);
            }
            pair.set_table(cell, &[(1 << s.width) - 1]);
            assert!(length_and_file(pair, lend) > 0);
            pair.set_table(cell, &table[cell..=cell]);
        }
        // The cells after the table are not the call's.
        pair.set_table(lend.cells, &[0xffff; SPARE]);
        assert_eq!(pair.run(lend, Call::FileLength), length);
    }
    pair.out()[0]
}

/// Lengths that are worked out by hand.
#[test]
fn known_lengths() {
    let mut pair = Pair::new("known file lengths");
    let plain = Settings::new(PLAIN, 4, 1, 0);
    for (s, table, length) in [
        (plain, &[0, 9, 0, 3][..], 9),
        (plain.with_salt(1 << 63), &[0, 9, 0, 3], 17),
        (plain, &[0; 4], 5),
        (plain, &[15; 4], 13),
        (plain, &[0, 9, 16, 3], -17),
        (Settings::new(PLAIN, 12, 1, 0), &[1, 4_095, 0, 0], 8),
        (Settings::new(RING, 12, 2, 0), &[0, 0, 0, 0, 0, 0, 0, 1], 8),
        (Settings::new(MASKED, 16, 4, 2), &[0xffff; 16], 7 + 4 + 32),
        (Settings::new(PLAIN, 12, 4_096, 0), &[0; 16_384], 4_097),
        (Settings::new(PLAIN, 12, 4_096, 0), &[1; 16_384], 36_865),
        (Settings::new(RING, 12, 4_096, 0), &[0; 16_384], 4_098),
        (Settings::new(MASKED, 12, 4_096, 1), &[0; 16_384], 4_100),
    ] {
        let lend = Lend::of(s).room(40_000);
        pair.size(lend.cells, 0, 40_000 + SPARE);
        pair.set_table(0, table);
        assert_eq!(length_and_file(&mut pair, lend), length, "{s:?}");
    }
    pair.done(&[16, 17]);
}

/// Every choice of faults at once: settings, then the table, then the cells, and never the room.
#[test]
fn length_faults() {
    let mut pair = Pair::new("file lengths with faults");
    pair.size(64, 0, 256);
    for (s, number) in [
        (Settings::new(3, 3, 3, 3), 1),
        (Settings::new(3, 4, 8, 0), 1),
        (Settings::new(PLAIN, 3, 3, 3), 2),
        (Settings::new(RING, 17, 8, 0), 2),
        (Settings::new(PLAIN, 4, 3, 3), 3),
        (Settings::new(RING, 4, 7, 0), 3),
        (Settings::new(MASKED, 4, 0, 0), 3),
        (Settings::new(PLAIN, 4, 8, 3), 4),
        (Settings::new(RING, 4, 8, 1), 4),
        (Settings::new(MASKED, 4, 8, 7), 4),
        (Settings::new(MASKED, 4, 8, 0), 4),
        (Settings::new(MASKED, 4, 8, 8), 4),
        (Settings::new(PLAIN, 4, 8, 0), 0),
        (Settings::new(RING, 5, 8, 0), 0),
        (Settings::new(MASKED, 6, 8, 3), 0),
    ] {
        let s = s.with_salt(salt(&mut pair.mix));
        let good = 4 * s.buckets as usize;
        for cells in [good, 0, good.saturating_sub(1), good + 1, good + 4, 64] {
            for (cell, wide) in [(0, false), (15, false), (64, true), (0xffff, true)] {
                pair.set_table(0, &[cell; 64]);
                for room in [0, 1, 256 - SPARE] {
                    let lend = Lend {
                        cells,
                        ..Lend::of(s).room(room)
                    };
                    let told = length_and_file(&mut pair, lend);
                    let expected = match number {
                        0 if cells != good => -5,
                        0 if wide => -17,
                        0 if cell == 0 => (head(s) + 8) as i64,
                        0 => (head(s) + 9 * 8) as i64,
                        number => -number,
                    };
                    assert_eq!(told, expected, "{lend:?} {cell}");
                }
            }
        }
    }
    pair.done(&[1, 2, 3, 4, 5, 16, 17]);
}

/// Tables of any cells and any length, with settings good and bad.
#[test]
fn any_lengths() {
    let mut pair = Pair::new("file lengths of any tables");
    let mut good = 0;
    for _ in 0..10_000 * long() {
        let s = settings(&mut pair.mix, 5);
        let mut lend = Lend::of(s).room(HEAD + 9 * 64 + SPARE);
        pair.size(lend.cells + SPARE, 0, lend.room);
        let load = pair.mix.below(101);
        let mut table = cells(&mut pair.mix, s, Cells::Random(load));
        if pair.mix.below(3) == 0 {
            for _ in 0..1 + pair.mix.below(3) {
                let cell = pair.mix.below(lend.cells as u64) as usize;
                table[cell] = pair.mix.draw() as u16;
            }
        }
        pair.set_table(0, &table);
        if pair.mix.below(6) == 0 {
            lend.settings = spoil(&mut pair.mix, s);
        }
        if pair.mix.below(6) == 0 {
            lend.cells = pair.mix.below((lend.cells + SPARE) as u64 + 1) as usize;
        }
        good += u32::from(length_and_file(&mut pair, lend) > 0);
    }
    assert!(good > 3_000 * long(), "{good}");
    pair.done(&[1, 2, 3, 4, 5, 16, 17]);
}

// ── memory ──

/// All that is lent for reading lies in memory that cannot be written, and all that is lent right ahead
/// of memory that cannot be touched: either ends the program.
#[test]
fn lent_for_reading() {
    let mut mix = seed::mix("memory lent for reading");
    let (mut told, mut lengths, mut wide) = (Told::default(), 0, 0);
    for _ in 0..1_500 * long() {
        let good = settings(&mut mix, 6);
        let s = match mix.below(8) {
            0 => spoil(&mut mix, good),
            _ => good,
        };
        let table = match mix.below(2) {
            0 => some_cells(&mut mix, good),
            _ => cells(&mut mix, good, Cells::Random(99)),
        };
        let tag = match mix.below(8) {
            0 => vec![],
            1 => mix.bytes(65),
            _ => tag(mix.draw() as u32),
        };
        let words = match mix.below(8) {
            0 => table.len() / 2 - 1,
            _ => table.len() / 2,
        };
        let words = scratch(&mut mix, good.buckets, words);
        let engine = Engine {
            null: mix.below(2) == 0,
        };
        let (lent_settings, lent_tag) = (Guarded::read_only(&[s]), Guarded::read_only(&tag));
        let (lent_table, mut lent_words) = (Guarded::read_only(&table), Guarded::new(&words));
        let lent = &lent_settings[0];
        let at = || format!("SEED={:x}: {s:?} {tag:?} {table:?}", seed::seed());

        let answer = engine.forecast(lent, &lent_table, &mut lent_words, &lent_tag);
        let mut copy = table.clone();
        let expected = table::hold(s, &mut copy, &mut words.clone(), &tag);
        let expected = expected.map_or_else(|number| -i64::from(number), i64::from);
        assert_eq!(answer, expected, "{}", at());
        if (-7..=-1).contains(&answer) {
            assert!(lent_words[..] == words, "{}", at());
        } else {
            told.add(answer);
        }

        let answer = engine.file_length(lent, &lent_table);
        let mut out = vec![0; HEAD + 9 * good.buckets as usize];
        let expected = holdfile::write(s, &table, &mut out);
        let expected = expected.map_or_else(|number| -i64::from(number), |n| n as i64);
        assert_eq!(answer, expected, "{}", at());
        lengths += u32::from(answer > 0);
        wide += u32::from(answer == -17);

        assert!(lent_table[..] == table && lent_tag[..] == tag && *lent == s);
    }
    told.each_above(50);
    assert!(lengths > 300 && wide > 100, "{lengths} {wide}");
}

/// A hold has to write a cell: this one is killed.
#[test]
#[ignore]
fn hold_in_a_table_to_read() {
    let s = Settings::new(PLAIN, 12, 8, 0);
    let table = Guarded::read_only(&[0u16; 32]);
    let place = table.as_ptr() as *mut u16;
    unsafe { Engine { null: false }.hold_at(&s, place, table.len(), &mut [0; 16], b"tag") };
}

#[test]
fn a_cell_that_is_written_shows() {
    let status = Command::new(env::current_exe().unwrap())
        .args(["--ignored", "--exact", "hold_in_a_table_to_read"])
        .output()
        .unwrap()
        .status;
    // A segmentation fault.
    assert_eq!(status.signal(), Some(11), "{status}");
}
