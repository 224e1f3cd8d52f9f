//! The table held to the reference model, and its searches to a search written word for word.

use oracle::index::{self, Answer, Settings, MASKED, PLAIN, RING};
use oracle::model::{Class, Model};
use oracle::requests::{masks, Mix};
use oracle::table::{clear, forecast, hold, lookup, release, view, view_check};
use std::collections::{HashSet, VecDeque};

fn cleared(settings: Settings) -> Vec<u16> {
    let mut table = vec![0xffff; 4 * settings.buckets as usize];
    assert_eq!(clear(settings, &mut table), Ok(()));
    assert!(table.iter().all(|&cell| cell == 0));
    table
}

/// The fast lookup, where there is one, answers this.
#[cfg(target_arch = "x86_64")]
fn fast_answers(settings: &Settings, table: &[u16], tag: &[u8], answer: Answer<u32>) {
    assert_eq!(oracle::fast::lookup(settings, table, tag), answer);
}

#[cfg(not(target_arch = "x86_64"))]
fn fast_answers(_: &Settings, _: &[u16], _: &[u8], _: Answer<u32>) {}

/// Scratch that held something before.
fn dirty(kind: u32, words: usize, mix: &mut Mix) -> Vec<u32> {
    let n = words as u32;
    match kind {
        0 => vec![0; words],
        1 => vec![u32::MAX; words],
        // Each word its own number, or its number within a half: as if all were queued.
        2 => (0..n).collect(),
        3 => (0..n).map(|i| i % (n / 2).max(1)).collect(),
        4 => (0..n).map(|i| n - i).collect(),
        _ => (0..n).map(|_| mix.draw() as u32).collect(),
    }
}

/// A tag of the i-th kind, so that a history has repeats.
fn tag(i: u32) -> Vec<u8> {
    let mut mix = Mix(u64::from(i));
    let length = 1 + mix.below(64) as usize;
    mix.bytes(length)
}

/// The filled cells of a table as classes, ascending.
fn classes(settings: Settings, table: &[u16]) -> Vec<Class> {
    let mut all: Vec<Class> = (0..settings.buckets)
        .flat_map(|b| view(settings, table, b).iter().map(move |&cell| (b, cell)))
        .filter(|&(_, cell)| cell != 0)
        .map(|(b, cell)| Class::of(settings, cell, b).unwrap())
        .collect();
    all.sort_unstable();
    all
}

/// The hold as the rules tell it: a queue of paths, and a set of marked buckets.
fn word_for_word(settings: Settings, table: &mut [u16], tag: &[u8]) -> Answer<u32> {
    let cells = |b: u32| 4 * b as usize..4 * b as usize + 4;
    let empty = |table: &[u16], b: u32| cells(b).find(|&i| table[i] == 0);
    let (fingerprint, home) = index::entry(settings, tag)?;
    let candidates = index::candidates(settings, fingerprint, home)?;
    for &b in &candidates {
        if let Some(i) = empty(table, b) {
            table[i] = fingerprint;
            return Ok(0);
        }
    }
    let mut marked = HashSet::new();
    let mut queue: VecDeque<(u32, Vec<usize>)> = VecDeque::new();
    for b in candidates {
        if marked.insert(b) {
            queue.push_back((b, vec![]));
        }
    }
    while let Some((b, path)) = queue.pop_front() {
        for i in cells(b) {
            for next in index::candidates(settings, table[i], b)? {
                if !marked.insert(next) {
                    continue;
                }
                let mut path = path.clone();
                path.push(i);
                if let Some(mut space) = empty(table, next) {
                    for &i in path.iter().rev() {
                        table[space] = table[i];
                        space = i;
                    }
                    table[space] = fingerprint;
                    return Ok(path.len() as u32);
                }
                queue.push_back((next, path));
            }
        }
    }
    Err(9)
}

/// A table and a model fed the same calls, with a second table whose holds are word for word.
struct Pair {
    settings: Settings,
    table: Vec<u16>,
    by_word: Vec<u16>,
    model: Model,
    accepted: usize,
    released: usize,
    full: usize,
    longest: u32,
}

impl Pair {
    fn new(settings: Settings) -> Self {
        Pair {
            settings,
            table: cleared(settings),
            by_word: cleared(settings),
            model: Model::new(settings),
            accepted: 0,
            released: 0,
            full: 0,
            longest: 0,
        }
    }

    fn hold(&mut self, tag: &[u8], scratch: &mut [u32]) {
        let before = (self.table.clone(), scratch.to_vec());
        let mut other: Vec<u32> = scratch.iter().map(|word| !word).collect();
        let told = forecast(self.settings, &self.table, &mut other, tag);
        let answer = hold(self.settings, &mut self.table, scratch, tag);
        assert_eq!(told, answer);
        assert_eq!(answer.map(|_| ()), self.model.hold(tag, scratch.len()));
        match answer {
            Err(9) => assert_eq!(self.table, before.0),
            Err(_) => assert_eq!(
                (&self.table[..], &scratch[..]),
                (&before.0[..], &before.1[..])
            ),
            Ok(_) => {}
        }
        if answer != Err(6) {
            let expected = word_for_word(self.settings, &mut self.by_word, tag);
            assert_eq!(answer, expected);
        }
        assert_eq!(self.table, self.by_word);
        match answer {
            Ok(moves) => {
                self.accepted += 1;
                self.longest = self.longest.max(moves);
            }
            Err(9) => self.full += 1,
            Err(_) => {}
        }
    }

    fn release(&mut self, tag: &[u8]) {
        let before = self.table.clone();
        let answer = release(self.settings, &mut self.table, tag);
        assert_eq!(answer, self.model.release(tag));
        if answer == Ok(true) {
            self.released += 1;
            assert_eq!(release(self.settings, &mut self.by_word, tag), Ok(true));
        } else {
            assert_eq!(self.table, before);
        }
    }

    fn lookup(&self, tag: &[u8]) {
        let answer = lookup(self.settings, &self.table, tag);
        assert_eq!(answer, self.model.lookup(tag));
        fast_answers(&self.settings, &self.table, tag, answer);
    }

    fn compare(&self) {
        let filled = classes(self.settings, &self.table);
        assert_eq!(filled, self.model.entries());
        assert_eq!(filled.len(), self.accepted - self.released);
    }
}

fn small_settings() -> Vec<Settings> {
    let mut all = vec![];
    for width in [4, 12, 16] {
        for buckets in [1, 2, 4, 8, 16, 32] {
            all.push(Settings::new(PLAIN, width, buckets, 0));
            let masked = |mask| Settings::new(MASKED, width, buckets, mask);
            all.extend(masks(buckets).into_iter().map(masked));
        }
        for buckets in [2, 4, 6, 8, 10, 14, 16, 22] {
            all.push(Settings::new(RING, width, buckets, 0));
        }
    }
    all
}

/// Every other round has a salt.
fn salted(settings: Settings, round: u32, mix: &mut Mix) -> Settings {
    match round % 4 {
        1 => settings.with_salt(1 << mix.below(64)),
        3 => settings.with_salt(mix.draw()),
        _ => settings,
    }
}

#[test]
fn one_bucket_takes_four() {
    let settings = Settings::new(PLAIN, 12, 1, 0);
    let mut table = cleared(settings);
    for _ in 0..4 {
        assert_eq!(hold(settings, &mut table, &mut [0; 2], b"tag"), Ok(0));
    }
    assert_eq!(hold(settings, &mut table, &mut [0; 2], b"tag"), Err(9));
}

#[test]
fn two_buckets_of_the_ring_take_eight() {
    let settings = Settings::new(RING, 12, 2, 0);
    let mut table = cleared(settings);
    for _ in 0..8 {
        assert_eq!(hold(settings, &mut table, &mut [0; 4], b"tag"), Ok(0));
    }
    assert_eq!(hold(settings, &mut table, &mut [0; 4], b"tag"), Err(9));
}

#[test]
fn histories() {
    let mut mix = Mix(3);
    let (mut longest, mut full) = (0, 0);
    for settings in small_settings() {
        // Each kind of tags, with a salt and without.
        for round in 0..12 {
            let settings = salted(settings, round / 3, &mut mix);
            let mut pair = Pair::new(settings);
            let cells = 4 * settings.buckets;
            // Few kinds of tags make many repeats, and many fill the table evenly.
            let kinds = u64::from([cells / 3 + 1, 2 * cells, 100_000][round as usize % 3]);
            let words = 2 * settings.buckets as usize;
            let mut scratch = dirty(round, words, &mut mix);
            for step in 0..6 * cells {
                let tag = tag(mix.below(kinds));
                // Holds and releases prevail in turn, so that the load goes up and down.
                let holds = if step / cells % 2 == 0 { 8 } else { 3 };
                match mix.below(10) {
                    n if n < holds => {
                        if mix.below(3) == 0 {
                            scratch = dirty(mix.below(6), words, &mut mix);
                        }
                        pair.hold(&tag, &mut scratch);
                    }
                    9 => pair.lookup(&tag),
                    _ => pair.release(&tag),
                }
                if mix.below(20) == 0 {
                    match mix.below(4) {
                        0 => pair.hold(&[], &mut scratch),
                        1 => pair.release(&[7; 65]),
                        2 => pair.lookup(&[]),
                        _ => pair.hold(&tag, &mut scratch[1..]),
                    }
                }
                if mix.below(4) == 0 {
                    pair.compare();
                }
            }
            pair.compare();
            longest = longest.max(pair.longest);
            full += pair.full;
        }
    }
    assert!(longest >= 5, "{longest}");
    assert!(full >= 1_000, "{full}");
}

/// Cells that no hold wrote, with values of 2^w and above, on the path of a search.
#[test]
fn searches_over_any_cells() {
    let mut mix = Mix(4);
    let (mut longest, mut full) = (0, 0);
    for settings in small_settings() {
        for round in 0..120 {
            let settings = salted(settings, round / 6, &mut mix);
            let cells = 4 * settings.buckets as usize;
            let mut table: Vec<u16> = (0..cells).map(|_| (mix.draw() as u16).max(1)).collect();
            for _ in 0..mix.below(4) {
                table[mix.below(cells as u64) as usize] = 0;
            }
            let mut by_word = table.clone();
            let mut scratch = dirty(round % 6, cells / 2 + mix.below(3) as usize, &mut mix);
            for _ in 0..4 {
                let tag = tag(mix.draw() as u32);
                let told = forecast(settings, &table, &mut scratch, &tag);
                let answer = hold(settings, &mut table, &mut scratch, &tag);
                assert_eq!(told, answer);
                assert_eq!(answer, word_for_word(settings, &mut by_word, &tag));
                assert_eq!(table, by_word);
                match answer {
                    Ok(moves) => longest = longest.max(moves),
                    Err(number) => {
                        assert_eq!(number, 9);
                        full += 1;
                    }
                }
            }
        }
    }
    assert!(longest >= 5, "{longest}");
    assert!(full >= 1_000, "{full}");
}

/// A large table to its first refusal and beyond, word for word.
#[test]
fn large_tables() {
    for settings in [
        Settings::new(PLAIN, 16, 1_024, 0),
        Settings::new(RING, 12, 1_022, 0),
        Settings::new(MASKED, 12, 1_024, 0x155),
        Settings::new(RING, 12, 1_022, 0).with_salt(0x0123_4567_89ab_cdef),
    ] {
        let mut mix = Mix(5);
        let mut table = cleared(settings);
        let mut by_word = table.clone();
        let mut scratch = dirty(5, 2 * settings.buckets as usize, &mut mix);
        let mut full = 0;
        while full < 20 {
            let tag = mix.bytes(8);
            let told = forecast(settings, &table, &mut scratch, &tag);
            let answer = hold(settings, &mut table, &mut scratch, &tag);
            assert_eq!(told, answer);
            assert_eq!(answer, word_for_word(settings, &mut by_word, &tag));
            full += u32::from(answer == Err(9));
        }
        assert_eq!(table, by_word);
        let filled = table.iter().filter(|&&cell| cell != 0).count();
        assert!(
            filled * 100 > table.len() * 95,
            "{filled} of {}",
            table.len()
        );
    }
}

/// Each check before the next, with the later faults there too; and nothing is changed.
#[test]
fn refusals_in_order() {
    let good = Settings::new(MASKED, 12, 8, 5);
    let cases = [
        (Settings::new(3, 17, 7, 9), 3, 1, 0, 99, 1),
        (Settings::new(MASKED, 17, 7, 9), 3, 1, 0, 99, 2),
        (Settings::new(MASKED, 12, 7, 9), 3, 1, 0, 99, 3),
        (Settings::new(MASKED, 12, 7, 6), 3, 1, 0, 99, 3),
        (Settings::new(MASKED, 12, 8, 9), 3, 1, 0, 99, 4),
        (Settings::new(MASKED, 12, 8, 0), 3, 1, 0, 99, 4),
        (Settings::new(MASKED, 12, 8, 7), 32, 16, 1, 0, 4),
        (Settings::new(MASKED, 12, 2, 1), 8, 4, 1, 0, 4),
        (Settings::new(MASKED, 12, 1, 0), 4, 2, 1, 0, 4),
        (good, 31, 1, 0, 99, 5),
        (good, 33, 15, 65, 8, 5),
        (good, 0, 15, 65, 8, 5),
        (good, 32, 15, 0, 8, 6),
        (good, 32, 0, 65, u32::MAX, 6),
        (good, 32, 16, 0, 8, 7),
        (good, 32, 99, 65, 8, 7),
    ];
    for (settings, cells, words, length, bucket, number) in cases {
        let mut mix = Mix(6);
        let before: Vec<u16> = (0..cells).map(|_| mix.draw() as u16).collect();
        let dirt: Vec<u32> = (0..words).map(|_| mix.draw() as u32).collect();
        let tag = vec![1; length];
        let mut table = before.clone();
        let mut scratch = dirt.clone();
        assert_eq!(hold(settings, &mut table, &mut scratch, &tag), Err(number));
        assert_eq!(forecast(settings, &table, &mut scratch, &tag), Err(number));
        // Scratch does not concern the others, nor a tag the view.
        let other = if number == 6 { 7 } else { number };
        assert_eq!(release(settings, &mut table, &tag), Err(other));
        assert_eq!(lookup(settings, &table, &tag), Err(other));
        fast_answers(&settings, &table, &tag, Err(other));
        let seen = if number > 5 { 8 } else { number };
        assert_eq!(view_check(settings, &table, bucket), seen);
        assert!(view(settings, &table, bucket).is_empty());
        if number <= 5 {
            assert_eq!(clear(settings, &mut table), Err(number));
        }
        assert_eq!((table, scratch), (before, dirt));
    }
}

/// How often forecasts said what.
#[derive(Default, Debug)]
struct Told {
    at_once: u32,
    one_move: u32,
    more_moves: u32,
    full: u32,
}

impl Told {
    fn add(&mut self, answer: Answer<u32>) {
        match answer {
            Ok(0) => self.at_once += 1,
            Ok(1) => self.one_move += 1,
            Ok(_) => self.more_moves += 1,
            Err(number) => {
                assert_eq!(number, 9);
                self.full += 1;
            }
        }
    }

    fn each_above(&self, count: u32) {
        let all = [self.at_once, self.one_move, self.more_moves, self.full];
        assert!(all.iter().all(|&n| n > count), "{self:?}");
    }
}

/// A forecast is the answer of a hold on a copy, and the one that the rules give word for word: under
/// each rule, at every load, with prints of 2^w and above among the cells, and whatever scratch held.
#[test]
fn forecasts_are_the_answers_of_holds() {
    let mut mix = Mix(9);
    let mut told: [Told; 3] = Default::default();
    for settings in small_settings() {
        for round in 0..60 {
            let settings = salted(settings, round, &mut mix);
            let cells = 4 * settings.buckets as usize;
            let values = match round % 3 {
                0 => 1 << 16,
                1 => 1 << settings.width,
                // Few fingerprints share their candidates, and soon jam.
                _ => 3,
            };
            let mut table: Vec<u16> = (0..cells)
                .map(|_| 1 + mix.below(values - 1) as u16)
                .collect();
            let empty = match round % 5 {
                0 => cells,
                _ => mix.below(5) as usize,
            };
            for _ in 0..empty {
                table[mix.below(cells as u64) as usize] = 0;
            }
            let words = cells / 2 + mix.below(3) as usize;
            for _ in 0..6 {
                let tag = tag(mix.draw() as u32);
                let before = table.clone();
                let mut scratch = dirty(mix.below(6), words, &mut mix);
                let answer = forecast(settings, &table, &mut scratch, &tag);
                assert_eq!(table, before);
                let (mut copy, mut by_word) = (table.clone(), table.clone());
                let mut scratch = dirty(mix.below(6), words, &mut mix);
                let held = hold(settings, &mut copy, &mut scratch, &tag);
                assert_eq!(answer, held, "{settings:?} {tag:?}");
                assert_eq!(answer, word_for_word(settings, &mut by_word, &tag));
                told[settings.rule as usize].add(answer);
                // Towards full from some, and from others as they were.
                if round % 2 == 0 {
                    table = copy;
                }
            }
        }
    }
    for rule in told {
        rule.each_above(300);
    }
}

/// Every choice of faults at once: the forecast is refused as the hold is, by the first of them, and
/// up to the tag's scratch is as it was.
#[test]
fn forecasts_check_as_holds_do() {
    let mut mix = Mix(10);
    let mut seen = [0; 10];
    for (settings, number) in [
        (Settings::new(3, 17, 7, 9), 1),
        (Settings::new(u32::MAX, 12, 8, 0), 1),
        (Settings::new(PLAIN, 3, 7, 9), 2),
        (Settings::new(RING, 17, 8, 0), 2),
        (Settings::new(PLAIN, 12, 0, 9), 3),
        (Settings::new(RING, 12, 7, 0), 3),
        (Settings::new(MASKED, 12, 6, 2), 3),
        (Settings::new(PLAIN, 12, 8, 1), 4),
        (Settings::new(RING, 4, 6, 6), 4),
        (Settings::new(MASKED, 16, 8, 7), 4),
        (Settings::new(PLAIN, 12, 8, 0), 0),
        (Settings::new(PLAIN, 4, 1, 0), 0),
        (Settings::new(RING, 4, 6, 0), 0),
        (Settings::new(MASKED, 16, 8, 5), 0),
    ] {
        let good = 4 * settings.buckets as usize;
        for cells in [good, 0, good.wrapping_sub(1), good + 1, good + 4] {
            for words in [good / 2, good, 0, (good / 2).wrapping_sub(1)] {
                // Less than none.
                if cells > 99 || words > 99 {
                    continue;
                }
                for length in [1, 64, 0, 65, 200] {
                    let tag = mix.bytes(length);
                    // No search finds an empty cell.
                    let full = vec![1; cells];
                    let dirt = dirty(mix.below(6), words, &mut mix);
                    let mut scratch = dirt.clone();
                    let answer = forecast(settings, &full, &mut scratch, &tag);
                    let expected = match number {
                        0 if cells != good => 5,
                        0 if words < good / 2 => 6,
                        0 if !(1..=64).contains(&length) => 7,
                        0 => 9,
                        number => number,
                    };
                    assert_eq!(answer, Err(expected), "{settings:?} {cells} {words}");
                    assert!(scratch == dirt || expected == 9);
                    let (mut copy, mut scratch) = (full.clone(), dirt);
                    assert_eq!(hold(settings, &mut copy, &mut scratch, &tag), answer);
                    seen[expected as usize] += 1;
                }
            }
        }
    }
    for number in [1, 2, 3, 4, 5, 6, 7, 9] {
        assert!(seen[number] >= 10, "{seen:?}");
    }
}

/// Copies over the candidate set in tables of any values, each bucket once: against a count of all
/// cells whose bucket is a candidate.
#[test]
fn copies_in_any_table() {
    let mut mix = Mix(8);
    let (mut coinciding, mut most) = (0, 0);
    for settings in small_settings() {
        for round in 0..80 {
            let settings = salted(settings, round, &mut mix);
            let tag = mix.bytes(3);
            let (fingerprint, home) = index::entry(settings, &tag).unwrap();
            let candidates = index::candidates(settings, fingerprint, home).unwrap();
            let table: Vec<u16> = (0..4 * settings.buckets)
                .map(|_| match mix.below(3) {
                    0 => fingerprint,
                    1 => fingerprint ^ 1 << mix.below(16),
                    _ => mix.draw() as u16,
                })
                .collect();
            let expected = (0..table.len())
                .filter(|&i| table[i] == fingerprint && candidates.contains(&(i as u32 / 4)))
                .count() as u32;
            assert_eq!(lookup(settings, &table, &tag), Ok(expected));
            fast_answers(&settings, &table, &tag, Ok(expected));
            let set: HashSet<u32> = candidates.iter().copied().collect();
            coinciding += u32::from(set.len() < candidates.len());
            most = most.max(expected);
        }
    }
    assert!(coinciding > 100, "{coinciding}");
    assert!(most > 8, "{most}");
}

/// What the salt is for: a clear tag that reads held under one salt does not under another, but by
/// chance. Salts that agree in the low eight bits are of little use. And a table that is looked at
/// with another salt is another list. The width is 9, since at 8 too many tags that count up share a
/// fingerprint.
#[test]
fn other_salts_have_other_unlucky_tags() {
    let plain = Settings::new(PLAIN, 9, 4_096, 0);
    let herd: Vec<String> = (0..40_000)
        .map(|i| format!("UK {} {:05}", 639_951 + i / 2_000, i % 2_000))
        .collect();
    // Every seventh is held.
    let held = || herd.iter().step_by(7);
    let unlucky = |salt: u64| -> HashSet<usize> {
        let settings = plain.with_salt(salt);
        let mut table = cleared(settings);
        let mut scratch = vec![0; 2 * 4_096];
        for tag in held() {
            let answer = hold(settings, &mut table, &mut scratch, tag.as_bytes());
            assert!(answer.is_ok(), "{salt:x}: {tag}");
        }
        let reads =
            |salt, tag: &str| lookup(plain.with_salt(salt), &table, tag.as_bytes()).unwrap() > 0;
        assert!(held().all(|tag| reads(salt, tag)));
        let found = held().filter(|tag| reads(salt ^ 0x5a, tag)).count();
        assert!(10 * found < held().count(), "{salt:x}: {found}");
        let clear = (0..herd.len()).filter(|i| i % 7 != 0);
        clear.filter(|&i| reads(salt, &herd[i])).collect()
    };
    let first = unlucky(0);
    assert!(first.len() > 300, "{}", first.len());
    for salt in [1, 2, 3, 2_027, 0x9e37_79b9_7f4a_7c15, u64::MAX] {
        let both = unlucky(salt).intersection(&first).count();
        assert!(
            10 * both < first.len(),
            "{salt:x}: {both} of {}",
            first.len()
        );
    }
    for salt in [0x100, 1 << 32] {
        let both = unlucky(salt).intersection(&first).count();
        assert!(
            2 * both > first.len(),
            "{salt:x}: {both} of {}",
            first.len()
        );
    }
}

#[test]
fn views() {
    for settings in small_settings() {
        let table: Vec<u16> = (1..=4 * settings.buckets as u16).collect();
        for b in 0..settings.buckets {
            let part = view(settings, &table, b);
            assert_eq!(part, &table[4 * b as usize..][..4]);
            assert_eq!(part.as_ptr(), table[4 * b as usize..].as_ptr());
            assert_eq!(view_check(settings, &table, b), 0);
        }
        for b in [settings.buckets, settings.buckets + 1, u32::MAX] {
            assert!(view(settings, &table, b).is_empty());
            assert_eq!(view_check(settings, &table, b), 8);
        }
    }
}
