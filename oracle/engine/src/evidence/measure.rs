//! The measurements. Each answers its data; a small run makes only some of the rows.

use super::data::Data;
use super::tags::{Kind, Tag, HERDS};
use crate::boundary::Engine;
use crate::row;
use oracle::displacement;
use oracle::index::{Settings, MASKED, PLAIN, RING};
use oracle::requests::Mix;
use std::sync::atomic::{AtomicUsize, Ordering};
use std::sync::Mutex;
use std::thread;

const ENGINE: Engine = Engine { null: false };

pub const RULES: [u32; 3] = [PLAIN, RING, MASKED];

/// The default width and bucket count.
pub const WIDTH: u32 = 12;
pub const BUCKETS: u32 = 4_096;

/// How much is measured.
#[derive(Clone, Copy, PartialEq)]
pub enum Run {
    Small,
    Whole,
}

impl Run {
    /// What a small run leaves out, by whether it is small enough.
    fn takes(self, small: bool) -> bool {
        self == Run::Whole || small
    }
}

/// Every measurement, by the name of its data.
pub const ALL: [(&str, fn(Run) -> Data); 8] = [
    ("held_by_chance", held_by_chance),
    ("herds", herds),
    ("first_refusal", first_refusal),
    ("offered", offered),
    ("moves", moves),
    ("space", space),
    ("flipped_bits", flipped_bits),
    ("spellings", spellings),
];

pub fn rule_name(rule: u32) -> &'static str {
    ["plain", "ring", "masked"][rule as usize]
}

/// Settings with the mask that splits a bucket number into halves, the upper one longer by a bit
/// where they cannot be equal. None where the rule does not take so many buckets.
fn settings(rule: u32, width: u32, buckets: u32) -> Option<Settings> {
    let mask = match rule {
        MASKED => (1 << ((31 - buckets.leading_zeros()) / 2)) - 1,
        _ => 0,
    };
    let s = Settings::new(rule, width, buckets, mask);
    (ENGINE.settings_check(&s) == 0).then(|| s)
}

/// The answers for all jobs in their order, on as many cores as there are.
fn on_all_cores<J: Sync, A: Send>(jobs: &[J], answer: impl Fn(&J) -> A + Sync) -> Vec<A> {
    let next = AtomicUsize::new(0);
    let answers = Mutex::new(Vec::new());
    let cores = thread::available_parallelism().map_or(1, |n| n.get());
    thread::scope(|scope| {
        for _ in 0..cores {
            scope.spawn(|| loop {
                let i = next.fetch_add(1, Ordering::SeqCst);
                let answered = match jobs.get(i) {
                    Some(job) => answer(job),
                    None => break,
                };
                answers.lock().expect("no job fails").push((i, answered));
            });
        }
    });
    let mut answers = answers.into_inner().expect("no job fails");
    answers.sort_by_key(|&(i, _)| i);
    answers.into_iter().map(|(_, answered)| answered).collect()
}

/// The engine's list: cells and scratch.
struct List {
    s: Settings,
    cells: Vec<u16>,
    scratch: Vec<u32>,
}

impl List {
    fn new(s: Settings) -> Self {
        List {
            s,
            cells: vec![0; 4 * s.buckets as usize],
            scratch: vec![0; 2 * s.buckets as usize],
        }
    }

    /// The moves, or nothing where the list is full.
    fn hold(&mut self, tag: &Tag) -> Option<u32> {
        let answer = ENGINE.hold(&self.s, &mut self.cells, &mut self.scratch, tag.bytes());
        assert!(answer >= 0 || answer == -9, "{answer}");
        u32::try_from(answer).ok()
    }

    fn holds(&self, tag: &Tag) -> bool {
        reads_held(&self.s, &self.cells, tag)
    }
}

fn reads_held(s: &Settings, cells: &[u16], tag: &Tag) -> bool {
    let copies = ENGINE.lookup(s, cells, tag.bytes());
    assert!(copies >= 0, "{copies}");
    copies > 0
}

/// The list with random displacement. Its lookups are the engine's: cells and rules are the same.
struct Displacing {
    s: Settings,
    cells: Vec<u16>,
    chance: Mix,
}

impl Displacing {
    fn new(s: Settings, list: usize) -> Self {
        Displacing {
            s,
            cells: vec![0; 4 * s.buckets as usize],
            // Far from the numbers that the tags of any list are drawn from.
            chance: Mix(list as u64 + (1 << 63)),
        }
    }

    /// The kicks, or nothing where it gave up.
    fn hold(&mut self, tag: &Tag) -> Option<u32> {
        displacement::hold(self.s, &mut self.cells, &mut self.chance, tag.bytes()).ok()
    }
}

/// How many tags of a list are held for a share of the cells.
fn share(s: Settings, percent: u32) -> usize {
    4 * s.buckets as usize * percent as usize / 100
}

/// The share of tags that were never held and read held, if hashes are even: a tag reads held where
/// one of the entries has its class, and a class has as many of the home buckets as its candidate
/// set has.
fn expected(s: Settings, entries: usize) -> f64 {
    let homes = if s.rule == RING {
        s.buckets / 2
    } else {
        s.buckets
    };
    let prints = (1u32 << s.width) - 1;
    let sum: f64 = (1..=prints)
        .map(|p| {
            let mut four = [0; 4];
            let count = ENGINE.candidates(&s, p as u16, 0, &mut four);
            let mut set = four[..count as usize].to_vec();
            set.sort_unstable();
            set.dedup();
            let own = set.iter().filter(|&&b| b < homes).count() as f64;
            let class = own / f64::from(homes) / f64::from(prints);
            1.0 - (1.0 - class).powf(entries as f64)
        })
        .sum();
    sum / f64::from(prints)
}

/// Tags that were never held, in lists of tags that differ throughout.
fn held_by_chance(run: Run) -> Data {
    const LISTS: usize = 8;
    const LOOKUPS: usize = 500_000;
    let mut jobs = Vec::new();
    for rule in RULES {
        for width in 4..=16 {
            for percent in [25, 50, 75, 95] {
                if run.takes(percent == 50 && [4, 12].contains(&width)) {
                    jobs.push((rule, width, percent));
                }
            }
        }
    }
    let rows = on_all_cores(&jobs, |&(rule, width, percent)| {
        let s = settings(rule, width, BUCKETS)?;
        let entries = share(s, percent);
        let mut held = Vec::new();
        for number in 0..LISTS {
            let mut list = List::new(s);
            let mut tags = Kind::Differ.tags(number);
            for tag in tags.by_ref().take(entries) {
                // A list that does not get so full has no row.
                list.hold(&tag)?;
            }
            held.push(tags.take(LOOKUPS).filter(|tag| list.holds(tag)).count());
        }
        Some(row![
            rule_name(rule),
            width,
            BUCKETS,
            percent,
            LISTS,
            LOOKUPS,
            held.iter().sum::<usize>(),
            least(&held),
            most(&held),
            format!("{:.4e}", expected(s, entries)),
        ])
    });
    Data::new(
        "held_by_chance",
        "rule,width,buckets,percent,lists,lookups,held,least,most,expected",
        rows.into_iter().flatten().collect(),
    )
}

fn least(list: &[usize]) -> usize {
    *list.iter().min().expect("a list")
}

fn most(list: &[usize]) -> usize {
    *list.iter().max().expect("a list")
}

fn median(list: &[usize]) -> usize {
    let mut list = list.to_vec();
    list.sort_unstable();
    list[list.len() / 2]
}

/// Herds of which half is held: how many of the other half read held. Every other tag is held, or
/// each by the toss of a coin.
fn herds(run: Run) -> Data {
    const ANIMALS: usize = 8_000;
    let mut jobs = Vec::new();
    for kind in [Kind::CountUp, Kind::Backwards] {
        for rule in RULES {
            for width in 8..=16 {
                if run.takes(width == 12) {
                    jobs.push((kind, rule, width));
                }
            }
        }
    }
    let rows = on_all_cores(&jobs, |&(kind, rule, width)| {
        let s = settings(rule, width, BUCKETS).expect("the default count suits every rule");
        let (mut looked_up, mut refused) = (0, 0);
        let mut shares = Vec::new();
        for number in 0..HERDS.len() {
            for coin in [false, true] {
                let mut chance = Mix(number as u64);
                let mut list = List::new(s);
                let mut others = Vec::new();
                for (i, tag) in kind.tags(number).take(ANIMALS).enumerate() {
                    let taken = if coin {
                        chance.draw() >> 63 == 1
                    } else {
                        i % 2 == 0
                    };
                    if !taken {
                        others.push(tag);
                    } else if list.hold(&tag).is_none() {
                        refused += 1;
                    }
                }
                let held = others.iter().filter(|tag| list.holds(tag)).count();
                looked_up += others.len();
                shares.push(10_000 * held / others.len());
            }
        }
        let sorted = (least(&shares), median(&shares), most(&shares));
        row![
            kind.name(),
            rule_name(rule),
            width,
            BUCKETS,
            shares.len(),
            looked_up,
            refused,
            sorted.0,
            sorted.1,
            sorted.2,
        ]
    });
    // Shares are in hundredths of a percent.
    Data::new(
        "herds",
        "tags,rule,width,buckets,lists,lookups,refused,least,median,most",
        rows,
    )
}

/// How many lists of so many buckets are filled: as many buckets in all, within bounds.
fn lists_of(kind: Kind, buckets: u32) -> usize {
    match kind {
        Kind::Differ => ((1 << 18) / buckets as usize).clamp(4, 1_000),
        Kind::CountUp | Kind::Backwards => HERDS.len(),
    }
}

/// How far a list is filled until the first tag that finds no room, with the same tags by the engine
/// and by random displacement.
struct Filled {
    entries: usize,
    kicked: usize,
    /// A tag that was held reads clear after random displacement has given up.
    lost: bool,
}

fn fill(s: Settings, kind: Kind, number: usize) -> Filled {
    let mut list = List::new(s);
    let entries = kind
        .tags(number)
        .take_while(|tag| list.hold(tag).is_some())
        .count();
    let mut other = Displacing::new(s, number);
    let kicked = kind
        .tags(number)
        .take_while(|tag| other.hold(tag).is_some())
        .count();
    // The engine refuses a tag only where no layout has room for it.
    assert!(kicked <= entries, "{s:?}");
    let mut held = kind.tags(number).take(kicked);
    Filled {
        entries,
        kicked,
        lost: !held.all(|tag| reads_held(&s, &other.cells, &tag)),
    }
}

/// Half of these bucket counts has factors in common with 435, of which the offsets of narrow
/// fingerprints differ by multiples.
const SPLIT_RINGS: [u32; 3] = [870, 1_000, 6_000];

/// Bucket counts: the powers of two, and under the ring rule some that share factors with the offsets
/// and, at the default width, the quarters between the powers.
fn counts(rule: u32, width: u32) -> Vec<u32> {
    let powers = (0..=16).map(|log| 1 << log);
    if rule != RING {
        return powers.collect();
    }
    let parts = if width == WIDTH { 4..8 } else { 4..5 };
    let quarters = powers.flat_map(|power| parts.clone().map(move |n| power * n));
    let even = quarters.filter(|n| n % 8 == 0).map(|n| n / 4);
    let mut all: Vec<u32> = even.chain(SPLIT_RINGS).collect();
    all.retain(|&count| count <= 65_536);
    all.sort_unstable();
    all
}

/// The load at the first refusal.
fn first_refusal(run: Run) -> Data {
    let mut jobs = Vec::new();
    for kind in [Kind::Differ, Kind::CountUp, Kind::Backwards] {
        for rule in RULES {
            for width in 4..=16 {
                for buckets in counts(rule, width) {
                    let herd = width == WIDTH && buckets >= 16 && buckets.is_power_of_two();
                    let wanted = kind == Kind::Differ || herd;
                    if wanted && run.takes([64, 96, 870].contains(&buckets) && width % 4 == 0) {
                        jobs.push((kind, rule, width, buckets));
                    }
                }
            }
        }
    }
    let rows = on_all_cores(&jobs, |&(kind, rule, width, buckets)| {
        let s = settings(rule, width, buckets)?;
        let lists = lists_of(kind, buckets);
        let filled: Vec<Filled> = (0..lists).map(|number| fill(s, kind, number)).collect();
        let entries: Vec<usize> = filled.iter().map(|list| list.entries).collect();
        let kicked: Vec<usize> = filled.iter().map(|list| list.kicked).collect();
        Some(row![
            kind.name(),
            rule_name(rule),
            width,
            buckets,
            lists,
            least(&entries),
            median(&entries),
            most(&entries),
            least(&kicked),
            median(&kicked),
            most(&kicked),
            filled.iter().filter(|list| list.lost).count(),
        ])
    });
    Data::new(
        "first_refusal",
        "tags,rule,width,buckets,lists,least,median,most,kick least,kick median,kick most,lost",
        rows.into_iter().flatten().collect(),
    )
}

/// As many tags as there are cells, offered one after the other, whatever becomes of those before.
fn offered(run: Run) -> Data {
    const WIDTH: u32 = 14;
    const LISTS: usize = 4;
    let mut jobs = Vec::new();
    for buckets in [256, 16_384] {
        for rule in RULES {
            if run.takes(buckets == 256) {
                jobs.push((rule, buckets));
            }
        }
    }
    let rows = on_all_cores(&jobs, |&(rule, buckets)| {
        let s = settings(rule, WIDTH, buckets).expect("both counts suit every rule");
        let cells = 4 * buckets as usize;
        let (mut stored, mut moves, mut kept, mut kicks) = (0, 0, 0, 0);
        for number in 0..LISTS {
            let mut list = List::new(s);
            let mut other = Displacing::new(s, number);
            for tag in Kind::Differ.tags(number).take(cells) {
                if let Some(moved) = list.hold(&tag) {
                    stored += 1;
                    moves += u64::from(moved);
                }
                let kicked = other.hold(&tag);
                kept += u32::from(kicked.is_some());
                kicks += u64::from(kicked.unwrap_or(displacement::MOST_KICKS));
            }
        }
        row![
            rule_name(rule),
            WIDTH,
            buckets,
            LISTS,
            LISTS * cells,
            stored,
            moves,
            kept,
            kicks,
        ]
    });
    Data::new(
        "offered",
        "rule,width,buckets,lists,offered,stored,moves,kick stored,kicks",
        rows,
    )
}

/// What was moved for the holds at one load.
#[derive(Clone, Copy, Default)]
struct Moved {
    holds: u64,
    moves: u64,
    longest: u32,
}

impl Moved {
    fn add(&mut self, moves: u32) {
        self.holds += 1;
        self.moves += u64::from(moves);
        self.longest = self.longest.max(moves);
    }
}

/// Moves for each hold, by the load before it, until the first refusal.
fn moves(run: Run) -> Data {
    const WIDTH: u32 = 16;
    const LISTS: usize = 4;
    let mut jobs = Vec::new();
    for buckets in [1_024, 65_536] {
        for rule in RULES {
            if run.takes(buckets == 1_024) {
                jobs.push((rule, buckets));
            }
        }
    }
    let rows = on_all_cores(&jobs, |&(rule, buckets)| {
        let s = settings(rule, WIDTH, buckets).expect("both counts suit every rule");
        let cells = 4 * buckets as usize;
        let mut by_load = [(Moved::default(), Moved::default()); 100];
        for number in 0..LISTS {
            let mut list = List::new(s);
            for (i, tag) in Kind::Differ.tags(number).enumerate() {
                match list.hold(&tag) {
                    Some(moves) => by_load[100 * i / cells].0.add(moves),
                    None => break,
                }
            }
            let mut other = Displacing::new(s, number);
            for (i, tag) in Kind::Differ.tags(number).enumerate() {
                match other.hold(&tag) {
                    Some(kicks) => by_load[100 * i / cells].1.add(kicks),
                    None => break,
                }
            }
        }
        let rows = by_load.iter().enumerate().map(|(percent, (mine, other))| {
            row![
                rule_name(rule),
                WIDTH,
                buckets,
                percent,
                LISTS,
                mine.holds,
                mine.moves,
                mine.longest,
                other.holds,
                other.moves,
                other.longest,
            ]
        });
        rows.collect::<Vec<_>>()
    });
    Data::new(
        "moves",
        "rule,width,buckets,percent,lists,holds,moves,longest,kick holds,kicks,kicks longest",
        rows.into_iter().flatten().collect(),
    )
}

/// The smallest list for a number of entries: the power of two, or the even number, of buckets into
/// which as many tags went in each of some lists.
fn space(run: Run) -> Data {
    const LISTS: usize = 4;
    let mut jobs = Vec::new();
    // Eight to an octave.
    for step in 0..=64 {
        let entries = (1_000.0 * f64::powf(2.0, f64::from(step) / 8.0)).round() as usize;
        for rule in [PLAIN, RING] {
            if run.takes(entries <= 1_500) {
                jobs.push((rule, entries));
            }
        }
    }
    let rows = on_all_cores(&jobs, |&(rule, entries)| {
        let s = counts_up_from(rule, entries)
            .map_while(|buckets| settings(rule, WIDTH, buckets))
            .find(|&s| (0..LISTS).all(|number| fits(s, number, entries)))?;
        let mut list = List::new(s);
        for tag in Kind::Differ.tags(0).take(entries) {
            list.hold(&tag)?;
        }
        let length = ENGINE.file_length(&s, &list.cells);
        let mut out = vec![0; 16 * list.cells.len()];
        let packed = ENGINE.packed_write(&s, &list.cells, &mut out);
        Some(row![
            rule_name(rule),
            WIDTH,
            entries,
            s.buckets,
            LISTS,
            2 * list.cells.len(),
            length,
            packed,
        ])
    });
    Data::new(
        "space",
        "rule,width,entries,buckets,lists,table bytes,file bytes,packed bytes",
        rows.into_iter().flatten().collect(),
    )
}

/// Bucket counts that might do for so many entries, ascending. Those of the ring go by loads from
/// 99.5 percent down, half a percent each.
fn counts_up_from(rule: u32, entries: usize) -> Box<dyn Iterator<Item = u32>> {
    let least = ((entries + 3) / 4) as u32;
    match rule {
        RING => Box::new((0..200).map(move |step| {
            let count = 1_000 * u64::from(least) / (995 - 5 * step) + 1;
            count as u32 + count as u32 % 2
        })),
        _ => Box::new((0..).map(move |step| least.next_power_of_two() << step)),
    }
}

fn fits(s: Settings, number: usize, entries: usize) -> bool {
    let mut list = List::new(s);
    Kind::Differ
        .tags(number)
        .take(entries)
        .all(|tag| list.hold(&tag).is_some())
}

/// What becomes of a form when one bit of it is turned over.
#[derive(Default)]
struct Flips {
    flips: usize,
    refused: [usize; 32],
    /// For each flip that was accepted, how many held tags read clear.
    cleared: Vec<usize>,
}

impl Flips {
    /// Takes the answer of a read, and of one that was accepted how many held tags read clear.
    fn add(&mut self, answer: Result<usize, i64>) {
        self.flips += 1;
        match answer {
            Ok(cleared) => self.cleared.push(cleared),
            Err(number) => self.refused[-number as usize] += 1,
        }
    }

    fn row(&self, form: &str, s: Settings, entries: usize, part: &str) -> Vec<String> {
        let numbers = (1..self.refused.len()).filter(|&n| self.refused[n] > 0);
        let numbers: Vec<String> = numbers.map(|n| n.to_string()).collect();
        let unharmed = self.cleared.iter().filter(|&&cleared| cleared == 0).count();
        row![
            form,
            rule_name(s.rule),
            s.width,
            s.buckets,
            entries,
            part,
            self.flips,
            self.refused.iter().sum::<usize>(),
            numbers.join(" "),
            self.cleared.len(),
            unharmed,
            self.cleared.iter().max().unwrap_or(&0),
        ]
    }
}

/// Every single bit of a saved list turned over: whether the reader refuses it, and of how many held
/// tags it makes the list say clear where it does not.
fn flipped_bits(_: Run) -> Data {
    const PERCENT: u32 = 90;
    let lists = [
        Settings::new(PLAIN, 16, 256, 0).with_salt(2_027),
        Settings::new(RING, 14, 250, 0).with_salt(2_027),
        Settings::new(MASKED, 14, 256, 15).with_salt(2_027),
    ];
    let rows = on_all_cores(&lists, |&s| {
        let entries = share(s, PERCENT);
        let mut list = List::new(s);
        let tags: Vec<Tag> = Kind::Differ.tags(0).take(entries).collect();
        for tag in &tags {
            list.hold(tag).expect("there is room at this load");
        }
        let cleared = |s: &Settings, cells: &[u16]| {
            let clear = tags.iter().filter(|tag| !reads_held(s, cells, tag));
            clear.count()
        };
        let mut rows = Vec::new();

        let mut file = vec![0; 15 + 9 * s.buckets as usize];
        let length = ENGINE.file_write(&s, &list.cells, &mut file);
        file.truncate(length as usize);
        let mut parts: Vec<(&str, Flips)> = Vec::new();
        for (at, part) in parts_of(&file, &s).into_iter().enumerate() {
            if parts.iter().all(|(name, _)| *name != part) {
                parts.push((part, Flips::default()));
            }
            let found = parts.iter_mut().find(|(name, _)| *name == part);
            let (_, flips) = found.expect("it was put there");
            for bit in 0..8 {
                file[at] ^= 1 << bit;
                flips.add(read(&file).map(|(s, cells)| cleared(&s, &cells)));
                file[at] ^= 1 << bit;
            }
        }
        for (part, flips) in parts {
            rows.push(flips.row("hold file", s, entries, part));
        }

        let mut form = vec![0; 8 * s.buckets as usize];
        let length = ENGINE.packed_write(&s, &list.cells, &mut form);
        form.truncate(length as usize);
        let mut flips = Flips::default();
        let mut cells = list.cells.clone();
        for bit in 0..8 * form.len() {
            form[bit / 8] ^= 1 << (bit % 8);
            let answer = ENGINE.packed_read(&s, &form, &mut cells);
            flips.add(if answer < 0 {
                Err(answer)
            } else {
                Ok(cleared(&s, &cells))
            });
            form[bit / 8] ^= 1 << (bit % 8);
        }
        rows.push(flips.row("packed form", s, entries, "all"));
        rows
    });
    Data::new(
        "flipped_bits",
        "form,rule,width,buckets,entries,part,flips,refused,numbers,accepted,unharmed,most cleared",
        rows.into_iter().flatten().collect(),
    )
}

/// What each byte of a hold file belongs to.
fn parts_of(file: &[u8], s: &Settings) -> Vec<&'static str> {
    let mut parts = vec!["map"];
    for (bit, name, bytes) in [
        (0, "rule", 1),
        (1, "width", 1),
        (2, "bucket count", 2),
        (3, "mask", 2),
        (4, "salt", 8),
    ] {
        if file[0] >> bit & 1 == 1 {
            parts.extend([name].repeat(bytes));
        }
    }
    for _ in 0..s.buckets {
        let marks = file[parts.len()];
        parts.push("bucket bytes");
        parts.extend(["fingerprints"].repeat(2 * marks.count_ones() as usize));
    }
    assert_eq!(parts.len(), file.len());
    parts
}

/// Reads a hold file of whatever settings it names.
fn read(file: &[u8]) -> Result<(Settings, Vec<u16>), i64> {
    let mut words = [0; 6];
    let answer = ENGINE.file_settings(file, &mut words);
    if answer < 0 {
        return Err(answer);
    }
    let mut cells = vec![0; 4 * words[2] as usize];
    let answer = ENGINE.file_read(file, &mut cells, &mut words);
    if answer < 0 {
        return Err(answer);
    }
    let salt = u64::from(words[5]) << 32 | u64::from(words[4]);
    let s = Settings::new(words[0], words[1], words[2], words[3]).with_salt(salt);
    Ok((s, cells))
}

/// Held tags, looked up as somebody else might write them.
fn spellings(_: Run) -> Data {
    const TAGS: usize = 1_000;
    let s = settings(PLAIN, 16, BUCKETS).expect("they pass");
    let mut list = List::new(s);
    let held: Vec<Tag> = Kind::CountUp.tags(0).take(TAGS).collect();
    for tag in &held {
        list.hold(tag).expect("there is room");
    }
    let others: [(&str, fn(&str) -> String); 6] = [
        ("as it was held", |tag| tag.to_string()),
        ("in small letters", str::to_lowercase),
        ("without blanks", |tag| tag.replace(' ', "")),
        ("with a blank after it", |tag| format!("{tag} ")),
        ("with the end of its line", |tag| format!("{tag}\n")),
        ("with hyphens for blanks", |tag| tag.replace(' ', "-")),
    ];
    let rows = others.iter().map(|(name, spelt)| {
        let held = held.iter().filter(|tag| {
            let tag = std::str::from_utf8(tag.bytes()).expect("it is text");
            reads_held(&s, &list.cells, &Tag::of(spelt(tag).as_bytes()))
        });
        row![name, s.width, BUCKETS, TAGS, held.count()]
    });
    Data::new(
        "spellings",
        "spelling,width,buckets,tags,held",
        rows.collect(),
    )
}
