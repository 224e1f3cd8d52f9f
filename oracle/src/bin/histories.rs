//! The requests on the table that the test program is run on, and their answers.
//!
//! `histories requests` writes the requests, and `histories answers` reads requests from standard
//! input and writes each with its answer. A request acts on what those before it left.

use oracle::index::{fnv1a, Answer, Settings, MASKED, PLAIN, RING};
use oracle::requests::{self, from_hex, listed, masks, numbers, run, shown, to_hex, Mix, SALTS};
use oracle::table;
use std::io;

/// The most that a request lends.
const CELLS: usize = 262_144;
const WORDS: usize = 131_072;

/// What the requests act on: the settings, the cells and the scratch, of which so many are lent.
struct State {
    settings: Settings,
    cells: Vec<u16>,
    words: Vec<u32>,
    lent_cells: usize,
    lent_words: usize,
}

/// Tags made from a seed.
struct Tags(u64);

impl Tags {
    fn next(&mut self) -> [u8; 8] {
        self.0 = self.0.wrapping_add(0x9e37_79b9_7f4a_7c15);
        self.0.to_le_bytes()
    }
}

impl State {
    fn new() -> Self {
        State {
            settings: Settings::new(0, 0, 0, 0),
            cells: vec![0; CELLS],
            words: vec![0; WORDS],
            lent_cells: 0,
            lent_words: 0,
        }
    }

    fn cells(&self) -> &[u16] {
        &self.cells[..self.lent_cells]
    }

    fn clear(&mut self) -> Answer<()> {
        table::clear(self.settings, &mut self.cells[..self.lent_cells])
    }

    fn hold(&mut self, tag: &[u8]) -> Answer<u32> {
        let cells = &mut self.cells[..self.lent_cells];
        let words = &mut self.words[..self.lent_words];
        table::hold(self.settings, cells, words, tag)
    }

    fn release(&mut self, tag: &[u8]) -> Answer<bool> {
        table::release(self.settings, &mut self.cells[..self.lent_cells], tag)
    }

    fn lookup(&self, tag: &[u8]) -> Answer<u32> {
        table::lookup(self.settings, self.cells(), tag)
    }

    fn view(&self, bucket: u32) -> String {
        match table::view_check(self.settings, self.cells(), bucket) {
            0 => listed(table::view(self.settings, self.cells(), bucket)),
            number => format!("refused {number}"),
        }
    }

    fn set(&mut self, cell: usize, value: u16) -> String {
        match self.cells[..self.lent_cells].get_mut(cell) {
            Some(place) => {
                *place = value;
                "set".to_string()
            }
            None => "none".to_string(),
        }
    }

    fn dirt(&mut self, value: u32) {
        for (i, word) in self.words[..self.lent_words].iter_mut().enumerate() {
            *word = value.wrapping_add(i as u32);
        }
    }

    /// The cells, or the hash of their bytes where there are many.
    fn all_cells(&self) -> String {
        if self.lent_cells <= 64 {
            return listed(self.cells());
        }
        let bytes: Vec<u8> = self.cells().iter().flat_map(|c| c.to_le_bytes()).collect();
        format!("{:016x}", fnv1a(&bytes))
    }

    fn holds(&mut self, seed: u64, count: u32) -> String {
        let (mut accepted, mut refused, mut moved, mut longest) = (0, 0, 0, 0);
        let mut bytes = vec![];
        let mut tags = Tags(seed);
        for _ in 0..count {
            let word = match self.hold(&tags.next()) {
                Ok(moves) => {
                    accepted += 1;
                    moved += u64::from(moves);
                    longest = longest.max(moves);
                    moves
                }
                Err(number) => {
                    refused += 1;
                    (1 << 31) + number
                }
            };
            bytes.extend(word.to_le_bytes());
        }
        let hash = fnv1a(&bytes);
        format!("accepted {accepted} refused {refused} moves {moved} longest {longest} hash {hash:016x}")
    }

    /// How often a call on the tags said yes, no and neither.
    fn counted(
        &mut self,
        seed: u64,
        count: u32,
        mut call: impl FnMut(&mut State, &[u8]) -> Answer<bool>,
    ) -> [u32; 3] {
        let mut counts = [0; 3];
        let mut tags = Tags(seed);
        for _ in 0..count {
            let i = match call(self, &tags.next()) {
                Ok(true) => 0,
                Ok(false) => 1,
                Err(_) => 2,
            };
            counts[i] += 1;
        }
        counts
    }

    fn answer(&mut self, request: &str) -> String {
        let fields: Vec<&str> = request.split(' ').collect();
        let number = |i: usize| -> u32 { fields[i].parse().expect("a number") };
        let seed = |i: usize| -> u64 { fields[i].parse().expect("a number") };
        let said =
            |yes: &str, no: &str, answer| shown(answer, |b| if b { yes } else { no }.to_string());
        match fields[0] {
            "open" => {
                self.settings = requests::settings(&fields);
                self.lent_cells = CELLS.min(number(6) as usize);
                self.lent_words = WORDS.min(number(7) as usize);
                "open".to_string()
            }
            "dirt" => {
                self.dirt(number(1));
                "dirt".to_string()
            }
            "set" => self.set(number(1) as usize, number(2) as u16),
            "clear" => shown(self.clear(), |()| "cleared".to_string()),
            "hold" => shown(self.hold(&from_hex(fields[1])), |moves| {
                format!("accepted {moves}")
            }),
            "release" => said("released", "absent", self.release(&from_hex(fields[1]))),
            "lookup" => shown(self.lookup(&from_hex(fields[1])), |copies| {
                format!("copies {copies}")
            }),
            "view" => self.view(number(1)),
            "holds" => self.holds(seed(1), number(2)),
            "releases" => {
                let [yes, no, refused] = self.counted(seed(1), number(2), State::release);
                format!("released {yes} absent {no} refused {refused}")
            }
            "lookups" => {
                let mut copies = 0;
                let [yes, no, refused] = self.counted(seed(1), number(2), |state, tag| {
                    let found = state.lookup(tag)?;
                    copies += u64::from(found);
                    Ok(found > 0)
                });
                format!("copies {copies} held {yes} clear {no} refused {refused}")
            }
            "cells" => self.all_cells(),
            kind => panic!("no such request: {kind}"),
        }
    }
}

/// The requests in order. Each is carried out as it is added, so that the next can depend on it.
struct Script {
    state: State,
    mix: Mix,
    lines: Vec<String>,
}

impl Script {
    fn say(&mut self, line: String) -> String {
        let answer = self.state.answer(&line);
        self.lines.push(line);
        answer
    }

    fn open(&mut self, s: Settings, cells: u32, words: u32) {
        self.say(format!("open {} {cells} {words}", numbers(s)));
    }

    /// Settings with as many cells as they ask for and enough words, and a fresh table.
    fn fresh(&mut self, s: Settings) {
        let more = [0, 0, 1, 7][self.mix.below(4) as usize];
        self.open(s, 4 * s.buckets, (2 * s.buckets + more).min(WORDS as u32));
        self.say("clear".to_string());
    }

    /// Scratch that looks like nothing, like a queue or like marks, of this call or another.
    fn dirt(&mut self) {
        let m = self.state.settings.buckets;
        let some = self.mix.draw() as u32;
        let value = match self.mix.below(10) {
            0 => 0,
            1 => 1,
            2 => u32::MAX,
            3 => m,
            4 => m.wrapping_neg(),
            5 => 1u32.wrapping_sub(m),
            6 => m << 16,
            7 => 1 << 31,
            8 => u32::MAX - m,
            _ => some,
        };
        self.say(format!("dirt {value}"));
    }

    fn call(&mut self, kind: &str, tag: &[u8]) -> String {
        self.say(format!("{kind} {}", to_hex(tag)))
    }

    fn view(&mut self, bucket: u32) {
        self.say(format!("view {bucket}"));
    }

    fn cells(&mut self) {
        self.say("cells".to_string());
    }

    fn set(&mut self, cell: usize, value: u16) {
        self.say(format!("set {cell} {value}"));
    }

    /// The worked examples, and the same tag released as often as it was held and once more.
    fn examples(&mut self) {
        for (s, room) in [
            (Settings::new(PLAIN, 12, 1, 0), 4),
            (Settings::new(RING, 12, 2, 0), 8),
            // Here the tag's candidates are one bucket, and there four.
            (Settings::new(MASKED, 12, 4, 1), 4),
            (Settings::new(MASKED, 12, 64, 7), 16),
            (Settings::new(PLAIN, 12, 4_096, 0), 8),
        ] {
            self.fresh(s);
            self.call("lookup", b"tag");
            for _ in 0..room {
                assert_eq!(self.call("hold", b"tag"), "accepted 0");
            }
            assert_eq!(self.call("hold", b"tag"), "refused 9");
            self.call("lookup", b"tag");
            self.cells();
            for _ in 0..room {
                self.call("release", b"tag");
            }
            assert_eq!(self.call("release", b"tag"), "absent");
            self.call("lookup", b"tag");
            self.cells();
        }
    }

    /// Every refusal alone, and then with each fault that comes later.
    fn refusals(&mut self) {
        let good = Settings::new(MASKED, 12, 8, 5);
        let max = u32::MAX;
        self.fresh(good);
        for tag in [&b"one"[..], b"two", b"three"] {
            self.call("hold", tag);
        }
        for (s, cells, words) in [
            (good, 32, 16),
            (good, 32, 17),
            (good, 32, 131_072),
            (Settings::new(3, 12, 8, 5), 32, 16),
            (Settings::new(3, 3, 0, max), 31, 15),
            (Settings::new(max, 17, 7, 8), 0, 0),
            (Settings::new(MASKED, 3, 8, 5), 32, 16),
            (Settings::new(MASKED, 17, 8, 5), 32, 16),
            (Settings::new(PLAIN, 0, 9, 9), 33, 15),
            (Settings::new(RING, max, 9, 9), 36, 0),
            (Settings::new(MASKED, 12, 0, 0), 0, 0),
            (Settings::new(MASKED, 12, 7, 5), 28, 14),
            (Settings::new(PLAIN, 12, 6, 0), 24, 12),
            (Settings::new(RING, 12, 7, 0), 28, 14),
            (Settings::new(RING, 12, 1, 0), 4, 2),
            (Settings::new(RING, 12, 0, 3), 1, 0),
            (Settings::new(PLAIN, 12, 65_537, 0), 262_144, 131_072),
            (Settings::new(RING, 12, 65_538, 0), 262_144, 131_072),
            (Settings::new(MASKED, 12, 131_072, 0), 262_144, 131_072),
            (Settings::new(PLAIN, 12, max, 7), 3, 3),
            (Settings::new(MASKED, 12, 7, 6), 28, 14),
            (Settings::new(MASKED, 12, 8, 8), 32, 16),
            (Settings::new(MASKED, 12, 8, max), 31, 0),
            (Settings::new(MASKED, 12, 8, 0), 32, 16),
            (Settings::new(MASKED, 12, 8, 7), 32, 16),
            (Settings::new(MASKED, 12, 4, 3), 15, 0),
            (Settings::new(MASKED, 12, 2, 0), 8, 4),
            (Settings::new(MASKED, 12, 2, 1), 8, 4),
            (Settings::new(MASKED, 12, 1, 0), 4, 2),
            (Settings::new(PLAIN, 12, 8, 1), 32, 16),
            (Settings::new(RING, 12, 8, 7), 33, 15),
            (good, 31, 16),
            (good, 33, 16),
            (good, 0, 0),
            (good, 28, 15),
            (good, 36, 131_072),
            (good, 8, 16),
            (good, 262_144, 0),
            (good, 32, 15),
            (good, 32, 0),
            (Settings::new(PLAIN, 16, 1, 0), 4, 1),
            (Settings::new(RING, 4, 10, 0), 40, 19),
            (Settings::new(RING, 4, 10, 0), 20, 19),
            (Settings::new(PLAIN, 12, 65_536, 0), 262_143, 131_072),
            (Settings::new(PLAIN, 12, 65_536, 0), 262_144, 131_071),
            (Settings::new(RING, 12, 65_534, 0), 262_144, 131_072),
            (Settings::new(RING, 12, 6, 0), 24, 12),
            (Settings::new(RING, 12, 6, 0), 12, 12),
            (Settings::new(RING, 12, 6, 0), 24, 11),
        ] {
            self.open(s, cells, words);
            if s != good || cells != 32 {
                self.say("clear".to_string());
            }
            for kind in ["hold", "release", "lookup"] {
                self.call(kind, b"four");
                self.call(kind, b"");
            }
            self.call("hold", &[0xa5; 65]);
            for bucket in [0, s.buckets, max] {
                self.view(bucket);
            }
            self.say("holds 1 3".to_string());
            self.say("releases 1 3".to_string());
            self.say("lookups 1 2".to_string());
            self.set(cells as usize, 5);
            // What a refused call left.
            self.open(good, 32, 16);
            self.cells();
        }
    }

    /// Tags of every length at the edges.
    fn lengths(&mut self) {
        for s in [
            Settings::new(PLAIN, 16, 64, 0),
            Settings::new(RING, 12, 14, 0),
            Settings::new(MASKED, 4, 32, 9),
        ] {
            self.fresh(s);
            for length in [0, 1, 2, 8, 63, 64, 65, 66, 200] {
                let tag = self.mix.bytes(length);
                for kind in ["lookup", "hold", "lookup", "release", "release", "hold"] {
                    self.call(kind, &tag);
                }
            }
            self.cells();
        }
    }

    /// Call by call on a small table: to its first refusal and beyond, and then up and down.
    fn small(&mut self, s: Settings) {
        // Few kinds of tags make many repeats, and many fill the table evenly.
        self.history(s, 1 + u64::from(s.buckets));
        self.history(s, 100_000);
    }

    fn history(&mut self, s: Settings, kinds: u64) {
        let tag = |i: u32| -> Vec<u8> {
            let length = 1 + (i % 3) as usize;
            i.wrapping_mul(0x9e37_79b1).to_be_bytes()[..length].to_vec()
        };
        let cells = 4 * s.buckets;
        self.fresh(s);
        self.dirt();
        let mut full = 0;
        let mut tries = 0;
        while full < 3 && tries < 2 * cells {
            let tag = tag(self.mix.below(kinds));
            if self.call("hold", &tag) == "refused 9" {
                full += 1;
            }
            tries += 1;
            if tries % 16 == 0 {
                self.dirt();
            }
        }
        self.cells();
        for _ in 0..cells / 2 + 4 {
            let tag = tag(self.mix.below(kinds));
            let kind = ["hold", "hold", "release", "lookup"][self.mix.below(4) as usize];
            self.call(kind, &tag);
        }
        self.view(0);
        self.view(s.buckets - 1);
        self.view(s.buckets);
        self.cells();
    }

    fn all_small(&mut self) {
        for width in [4, 12, 16] {
            for buckets in [1, 2, 4, 8, 16] {
                self.small(Settings::new(PLAIN, width, buckets, 0));
                for mask in masks(buckets) {
                    if width == 12 || mask == buckets / 2 {
                        self.small(Settings::new(MASKED, width, buckets, mask));
                    }
                }
            }
            for buckets in [2, 4, 6, 8, 10, 14] {
                self.small(Settings::new(RING, width, buckets, 0));
            }
        }
    }

    /// The widths that are not among these, under each rule in turn.
    fn other_widths(&mut self) {
        for width in (5..12).chain(13..16) {
            let s = match width % 3 {
                0 => Settings::new(PLAIN, width, 4, 0),
                1 => Settings::new(RING, width, 6, 0),
                _ => Settings::new(MASKED, width, 4, 1),
            };
            self.history(s, 100_000);
        }
    }

    /// Cells written raw, most of them of 2^w and above, with a few empty ones for a search to end
    /// in, and a table with none.
    fn raw(&mut self, s: Settings, empty: u32) {
        let cells = 4 * s.buckets as usize;
        self.fresh(s);
        for cell in 0..cells {
            let low = if self.mix.below(6) == 0 {
                1
            } else {
                1 << s.width.min(15)
            };
            let value = (self.mix.draw() as u16).max(low);
            self.set(cell, value);
        }
        for _ in 0..empty {
            let cell = self.mix.below(cells as u64) as usize;
            self.set(cell, 0);
        }
        self.dirt();
        self.cells();
        for _ in 0..empty + 2 {
            let tag = self.mix.bytes(2);
            self.call("hold", &tag);
            self.call("lookup", &tag);
        }
        self.cells();
        let bucket = self.mix.below(u64::from(s.buckets));
        self.view(bucket);
        // A value that no tag has is a fingerprint like any other; one that a tag has is released.
        let tag = self.mix.bytes(2);
        self.call("release", &tag);
        self.cells();
    }

    fn all_raw(&mut self) {
        for width in [4, 12] {
            for (rule, buckets, mask) in [
                (PLAIN, 4, 0),
                (PLAIN, 16, 0),
                (RING, 6, 0),
                (RING, 10, 0),
                (RING, 16, 0),
                (MASKED, 4, 1),
                (MASKED, 16, 6),
                (MASKED, 16, 14),
            ] {
                for empty in [1, 3] {
                    self.raw(Settings::new(rule, width, buckets, mask), empty);
                }
            }
        }
        self.raw(Settings::new(PLAIN, 4, 64, 0), 2);
        self.raw(Settings::new(RING, 12, 62, 0), 1);
        self.raw(Settings::new(MASKED, 12, 64, 21), 1);
    }

    /// How many holds from the seed on a copy of the table are accepted before the first refusal.
    fn room(&self, seed: u64) -> u32 {
        let s = self.state.settings;
        let mut cells = self.state.cells().to_vec();
        let mut words = self.state.words.clone();
        let mut tags = Tags(seed);
        (0..)
            .find(|_| table::hold(s, &mut cells, &mut words, &tags.next()).is_err())
            .expect("every table is full at some time")
    }

    /// A table to its first refusal and so many holds beyond, or to a tenth before it; then a
    /// quarter of it out, others in, and most of it out.
    fn large(&mut self, s: Settings, beyond: Option<u32>) {
        let seeds = [(); 3].map(|()| u64::from(self.mix.draw() as u32));
        self.fresh(s);
        self.dirt();
        let half = self.room(seeds[0]) / 2;
        self.say(format!("holds {} {half}", seeds[0]));
        self.say(format!("lookups {} {half}", seeds[0]));
        self.say(format!("lookups {} {}", seeds[1], half / 8));
        self.cells();
        let room = self.room(seeds[1]);
        let rest = beyond.map_or(room / 10 * 9, |more| room + more);
        self.say(format!("holds {} {rest}", seeds[1]));
        self.cells();
        for bucket in [0, s.buckets / 2 - 1, s.buckets - 1, s.buckets] {
            self.view(bucket);
        }
        self.dirt();
        self.say(format!("releases {} {}", seeds[0], half / 2));
        self.cells();
        self.say(format!("holds {} {}", seeds[2], half / 3));
        self.cells();
        self.say(format!("releases {} {rest}", seeds[1]));
        self.say(format!("lookups {} {half}", seeds[0]));
        self.say(format!("lookups {} {}", seeds[2], half / 2));
        self.cells();
    }

    fn all_large(&mut self) {
        for (buckets, beyond) in [(64, 40), (1_024, 30), (4_096, 10)] {
            for width in [4, 12, 16] {
                self.large(Settings::new(PLAIN, width, buckets, 0), Some(beyond));
                self.large(Settings::new(RING, width, buckets - 2, 0), Some(beyond));
                self.large(
                    Settings::new(MASKED, width, buckets, buckets / 3),
                    Some(beyond),
                );
            }
            for mask in masks(buckets) {
                if mask != buckets / 3 {
                    self.large(Settings::new(MASKED, 12, buckets, mask), Some(beyond));
                }
            }
        }
        self.large(Settings::new(RING, 12, 1_000, 0), Some(10));
        self.large(Settings::new(RING, 16, 32_770, 0), Some(2));
        // The largest once to the end, and else not so far, since a search over all takes its time.
        self.large(Settings::new(PLAIN, 16, 65_536, 0), Some(1));
        self.large(Settings::new(RING, 16, 65_536, 0), None);
        self.large(Settings::new(RING, 12, 65_534, 0), None);
        self.large(Settings::new(MASKED, 12, 65_536, 21_845), None);
    }

    /// Holds under one salt that another does not find, but by chance, and the first one still does.
    fn other_salt(&mut self, s: Settings, salt: u64) {
        self.fresh(s.with_salt(salt));
        let tags: Vec<Vec<u8>> = (0..6).map(|_| self.mix.bytes(5)).collect();
        for tag in &tags {
            self.call("hold", tag);
        }
        let words = 2 * s.buckets;
        for other in [0, !salt, salt] {
            self.open(s.with_salt(other), 4 * s.buckets, words);
            for tag in &tags {
                self.call("lookup", tag);
            }
        }
        self.call("release", &tags[0]);
        self.cells();
    }

    /// Some of all this under salts.
    fn all_salted(&mut self) {
        for (i, salt) in SALTS.into_iter().enumerate() {
            let s = [
                Settings::new(PLAIN, 12, 4, 0),
                Settings::new(RING, 12, 6, 0),
                Settings::new(MASKED, 12, 4, 2),
            ][i % 3]
                .with_salt(salt);
            self.history(s, 100_000);
            self.other_salt(s, salt);
        }
        let salt = self.mix.draw();
        self.large(Settings::new(PLAIN, 16, 1_024, 0).with_salt(1), Some(10));
        self.large(Settings::new(RING, 12, 1_000, 0).with_salt(salt), Some(10));
        let masked = Settings::new(MASKED, 4, 64, 21);
        self.large(masked.with_salt(u64::MAX), Some(10));
    }
}

fn requests() -> Vec<String> {
    let mut script = Script {
        state: State::new(),
        mix: Mix(1),
        lines: vec![],
    };
    script.examples();
    script.refusals();
    script.lengths();
    script.all_small();
    script.other_widths();
    script.all_raw();
    script.all_large();
    script.all_salted();
    script.lines
}

fn main() -> io::Result<()> {
    let mut state = State::new();
    run("histories", requests, |line| state.answer(line))
}

#[cfg(test)]
mod tests {
    use super::*;

    /// The test program reads lines of no more than so many bytes.
    #[test]
    fn requests_fit_the_program() {
        let all = requests();
        assert!(all.iter().map(|line| line.len() + 1).sum::<usize>() < 220_000);
        assert!(all.iter().all(|line| line.len() <= 1_000));
    }

    #[test]
    fn answers_as_text() {
        let mut state = State::new();
        for (request, answer) in [
            ("clear", "refused 2"),
            ("open 0 12 1 0 0 4 2", "open"),
            ("clear", "cleared"),
            ("dirt 4294967295", "dirt"),
            ("set 1 65535", "set"),
            ("set 4 1", "none"),
            ("hold 61", "accepted 0"),
            ("cells", "3377 65535 0 0"),
            ("lookup 61", "copies 1"),
            ("lookup 62", "copies 0"),
            ("hold 61", "accepted 0"),
            ("lookup 61", "copies 2"),
            ("lookups 5 2", "copies 0 held 0 clear 2 refused 0"),
            ("release 61", "released"),
            ("release 61", "released"),
            ("release 61", "absent"),
            ("release ", "refused 7"),
            ("view 0", "0 65535 0 0"),
            ("view 1", "refused 8"),
            (
                "holds 5 0",
                "accepted 0 refused 0 moves 0 longest 0 hash cbf29ce484222325",
            ),
            ("open 0 12 32 0 0 128 0", "open"),
            ("hold 61", "refused 6"),
            ("cells", "88053d13d8560a3b"),
            ("open 0 12 1 0 1 4 2", "open"),
            ("clear", "cleared"),
            ("hold 61", "accepted 0"),
            ("cells", "3812 0 0 0"),
            ("lookup 61", "copies 1"),
            ("lookup 60", "copies 0"),
            ("open 0 12 1 0 0 4 2", "open"),
            ("lookup 61", "copies 0"),
            // The salt turns over what tells the two bytes apart.
            ("hold 60", "accepted 0"),
            ("open 0 12 1 0 1 4 2", "open"),
            ("lookup 61", "copies 2"),
            ("open 0 12 1 0 18446744073709551615 4 2", "open"),
            ("hold 61", "accepted 0"),
            ("view 0", "3812 3812 541 0"),
        ] {
            assert_eq!(state.answer(request), answer, "{request}");
        }
    }
}
