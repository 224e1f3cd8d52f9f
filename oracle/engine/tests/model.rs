//! The engine held directly to the reference model: lists of holds, releases and lookups from a
//! cleared table, against a multiset of classes and a matching. No other table is in between.

use engine::boundary::Engine;
use engine::make::{long, one_of, salt, spoil, tag};
use engine::seed;
use oracle::index::{Answer, Settings, MASKED, PLAIN, RING};
use oracle::model::{Class, Model};
use oracle::requests::{masks, Mix};

const NAME: &str = "reference model";

/// Words of scratch beyond those that are asked for.
const SPARE: usize = 3;

#[derive(Clone, Copy, Debug)]
enum Call {
    Hold,
    Release,
    Lookup,
}

/// What the lists came to, so that a run which shows nothing is seen.
#[derive(Default, Debug)]
struct Seen {
    calls: u64,
    at_once: u64,
    moved: u64,
    repeated: u64,
    released: u64,
    absent: u64,
    clear: u64,
    held_once: u64,
    held_more: u64,
    refused: [u64; 10],
}

/// The engine's table, and the model that is fed the same calls.
struct Sides<'a> {
    settings: Settings,
    table: Vec<u16>,
    scratch: Vec<u32>,
    model: Model,
    entries: usize,
    mix: &'a mut Mix,
    seen: &'a mut Seen,
}

/// The filled cells, each as its class, ascending.
fn classes(settings: Settings, table: &[u16]) -> Vec<Class> {
    let mut all: Vec<Class> = (0..)
        .zip(table)
        .filter(|&(_, &cell)| cell != 0)
        .map(|(i, &cell): (u32, _)| {
            Class::of(settings, cell, i / 4).expect("a bucket of the table")
        })
        .collect();
    all.sort_unstable();
    all
}

/// An answer of the C boundary, by what a number that is no refusal says.
fn said<T>(answer: i64, value: impl Fn(i64) -> T) -> Answer<T> {
    match answer {
        0.. => Ok(value(answer)),
        _ => Err(-answer as u32),
    }
}

impl<'a> Sides<'a> {
    /// From a table that is cleared, where the settings are good.
    fn new(settings: Settings, cells: usize, mix: &'a mut Mix, seen: &'a mut Seen) -> Self {
        let mut table: Vec<u16> = (0..cells).map(|_| mix.draw() as u16).collect();
        let answer = Engine { null: false }.clear(&settings, &mut table);
        assert_eq!(said(answer, |_| ()), settings.check());
        if answer < 0 {
            table.fill(0);
        }
        let scratch = (0..cells / 2 + SPARE).map(|_| mix.draw() as u32).collect();
        Sides {
            settings,
            table,
            scratch,
            model: Model::new(settings),
            entries: 0,
            mix,
            seen,
        }
    }

    /// Makes the call on both sides, and compares the answer and what they then hold.
    fn call(&mut self, call: Call, tag: &[u8], words: usize) {
        let s = self.settings;
        let engine = Engine {
            null: self.mix.below(2) == 0,
        };
        let at = format!(
            "{NAME}, SEED={:x}, call {}: {call:?} of {tag:?} with {s:?} and {words} words",
            seed::seed(),
            self.seen.calls
        );
        self.seen.calls += 1;
        let before = self.table.clone();
        let refused = match call {
            Call::Hold => {
                let mut other: Vec<u32> = (0..words).map(|_| self.mix.draw() as u32).collect();
                let told = engine.forecast(&s, &self.table, &mut other, tag);
                assert_eq!(self.table, before, "{at}");
                let moves = engine.hold(&s, &mut self.table, &mut self.scratch[..words], tag);
                assert_eq!(told, moves, "{at}");
                let found = said(moves, |_| ());
                assert_eq!(found, self.model.hold(tag, words), "{at}");
                if found.is_ok() {
                    self.entries += 1;
                    self.seen.at_once += u64::from(moves == 0);
                    self.seen.moved += u64::from(moves > 0);
                }
                found.err()
            }
            Call::Release => {
                let answer = engine.release(&s, &mut self.table, tag);
                let found = said(answer, |n| n == 1);
                assert_eq!(found, self.model.release(tag), "{at}");
                if found == Ok(true) {
                    self.entries -= 1;
                }
                self.seen.released += u64::from(found == Ok(true));
                self.seen.absent += u64::from(found == Ok(false));
                found.err()
            }
            Call::Lookup => {
                let found = said(engine.lookup(&s, &self.table, tag), |n| n as u32);
                assert_eq!(found, self.model.lookup(tag), "{at}");
                self.seen.clear += u64::from(found == Ok(0));
                self.seen.held_once += u64::from(found == Ok(1));
                self.seen.held_more += u64::from(matches!(found, Ok(2..)));
                found.err()
            }
        };
        if let Some(number) = refused {
            self.seen.refused[number as usize] += 1;
            assert_eq!(self.table, before, "{at}");
        }
        // Under bad settings a cell has no class, and nothing may be held.
        if s.check().is_err() {
            assert_eq!((self.entries, self.table == before), (0, true), "{at}");
            return;
        }
        let held = classes(s, &self.table);
        assert_eq!(held, self.model.entries(), "{at}");
        assert_eq!(held.len(), self.entries, "{at}");
        self.seen.repeated += u64::from(held.windows(2).any(|two| two[0] == two[1]));
    }

    /// A list of calls in which holds and releases prevail in turn, with tags of so many kinds.
    fn list(&mut self, steps: u32, kinds: u64) {
        let asked = self.scratch.len() - SPARE;
        for i in 0..steps {
            let tag = match self.mix.below(25) {
                0 => {
                    let length = one_of(self.mix, &[0, 65, 66, 200]);
                    self.mix.bytes(length)
                }
                1 => {
                    let length = one_of(self.mix, &[1, 64]);
                    self.mix.bytes(length)
                }
                _ => tag(self.mix.below(kinds)),
            };
            let words = match self.mix.below(20) {
                0 => asked.saturating_sub(1),
                1 => self.mix.below(asked as u64 + 1) as usize,
                2 => asked + SPARE,
                _ => asked,
            };
            if self.mix.below(10) == 0 {
                let word = one_of(self.mix, &[0, 1, 0x1_0001, u32::MAX]);
                self.scratch.fill(word);
            }
            let holds = if i / (steps / 4 + 1) % 2 == 0 { 14 } else { 6 };
            match self.mix.below(20) {
                n if n < holds => self.call(Call::Hold, &tag, words),
                n if n < 16 => self.call(Call::Release, &tag, words),
                _ => self.call(Call::Lookup, &tag, words),
            }
        }
    }
}

/// Each rule with each of the bucket counts that it takes, and for the masked rule some masks.
fn all_settings(width: u32) -> Vec<Settings> {
    let mut all = vec![];
    for buckets in [1u32, 2, 4, 6, 8, 16, 64] {
        if buckets.is_power_of_two() {
            all.push(Settings::new(PLAIN, width, buckets, 0));
            let masked = |mask| Settings::new(MASKED, width, buckets, mask);
            all.extend(masks(buckets).into_iter().map(masked));
        }
        if buckets % 2 == 0 {
            all.push(Settings::new(RING, width, buckets, 0));
        }
    }
    all
}

#[test]
fn lists_of_calls() {
    let mut mix = seed::mix(NAME);
    let mut seen = Seen::default();
    for _ in 0..long() {
        // Narrow fingerprints, so that tags share classes; and wider ones.
        for width in [4, 5, 6, 12] {
            for settings in all_settings(width) {
                let cells = 4 * settings.buckets;
                for kinds in [cells / 3 + 1, 2 * cells, 1 << 20] {
                    let settings = settings.with_salt(salt(&mut mix));
                    let mut sides = Sides::new(settings, cells as usize, &mut mix, &mut seen);
                    sides.list(40 + 4 * cells, kinds.into());
                }
            }
        }
        // Under bad settings every call is refused by the first that is bad.
        for _ in 0..200 {
            let good = all_settings(4 + mix.below(13));
            let good = one_of(&mut mix, &good);
            let settings = spoil(&mut mix, good).with_salt(salt(&mut mix));
            // A fault may make them good again.
            if settings.check().is_err() {
                Sides::new(settings, 8, &mut mix, &mut seen).list(12, 100);
            }
        }
    }
    seed::tell(NAME, &format!(": {seen:?}"));
    let Seen { refused, .. } = seen;
    for number in [1, 2, 3, 4, 6, 7, 9] {
        assert!(refused[number] > 0, "no call was refused with {number}");
    }
    assert_eq!((refused[5], refused[8]), (0, 0));
    let told = [
        seen.at_once,
        seen.moved,
        seen.repeated,
        seen.released,
        seen.absent,
        seen.clear,
        seen.held_once,
        seen.held_more,
    ];
    assert!(told.iter().all(|&count| count > 100), "{seen:?}");
    assert!(refused[9] > 100, "{seen:?}");
}
