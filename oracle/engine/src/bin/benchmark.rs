//! The engine and the other implementation on the same inputs, in one run.
//!
//! Each measurement is taken several times, the sides in turn, and the medians are printed. All are
//! optimised; the engine is called through the C boundary, the other implementation through
//! functions that are not inlined. Beside its plain form, some calls are measured against others
//! that it has:
//!
//! - holds and lookups against the filter of the papers, with random displacement and a lookup that
//!   ends at the first copy;
//! - lookups against a branch-free one;
//! - the hold file against a branch-free one in ordinary Rust, and against the fastest one, which
//!   uses the processor's own instructions and reads in several places at once;
//! - the packed form against the fastest one. Its plain form has no branch that data decides and is
//!   made for each width.
//!
//! One run prints its rows, with commas between values; `benchmark small` takes fewer rounds and small
//! lists, only to see that it runs. `benchmark together FOLDER FILE ..` puts the rows of several runs
//! together, with their spread, into `speed.csv` and `cost.csv` of a folder. `./benchmark` at the top of
//! the repository does all of it.

use engine::boundary::Engine;
use engine::evidence::data::Data;
use engine::evidence::speed;
use oracle::index::{Settings, MASKED, PLAIN, RING};
use oracle::requests::Mix;
use oracle::{branch_free, displacement, fast, former, holdfile, packed, table};
use std::path::Path;
use std::process::exit;
use std::time::Instant;
use std::{env, fs, ptr};

const WIDTH: u32 = 16;
const ENGINE: Engine = Engine { null: false };

/// How much is measured.
#[derive(Clone, Copy)]
struct Run {
    rounds: usize,
    buckets: u32,
}

const WHOLE: Run = Run {
    rounds: 9,
    buckets: 65_536,
};
const SMALL: Run = Run {
    rounds: 1,
    buckets: 256,
};

/// One side: every call answers a number, below 0 for a refusal. Fast is the other implementation in
/// the form that is written for speed, and BranchFree the one between the two, where a call has one.
/// Random is the filter with random displacement.
#[derive(Clone, Copy, PartialEq)]
enum Side {
    Engine,
    Other,
    BranchFree,
    Fast,
    Random,
}

/// What a list needs: cells, scratch for a search, and where chance starts from.
#[derive(Clone)]
struct Memory {
    cells: Vec<u16>,
    scratch: Vec<u32>,
    chance: u64,
}

impl Memory {
    fn empty(s: &Settings) -> Self {
        Memory {
            cells: vec![0; 4 * s.buckets as usize],
            scratch: vec![0; 2 * s.buckets as usize],
            chance: 1,
        }
    }
}

fn signed<T>(answer: Result<T, u32>, value: impl Fn(T) -> i64) -> i64 {
    answer.map_or_else(|n| -i64::from(n), value)
}

impl Side {
    #[inline(never)]
    fn hold(self, s: &Settings, memory: &mut Memory, tag: &[u8]) -> i64 {
        let Memory {
            cells,
            scratch,
            chance,
        } = memory;
        match self {
            Side::Engine => ENGINE.hold(s, cells, scratch, tag),
            Side::Random => {
                let mut mix = Mix(*chance);
                let answer = displacement::hold(*s, cells, &mut mix, tag);
                *chance = mix.0;
                signed(answer, i64::from)
            }
            _ => signed(table::hold(*s, cells, scratch, tag), i64::from),
        }
    }

    #[inline(never)]
    fn forecast(self, s: &Settings, cells: &[u16], scratch: &mut [u32], tag: &[u8]) -> i64 {
        match self {
            Side::Engine => ENGINE.forecast(s, cells, scratch, tag),
            _ => signed(table::forecast(*s, cells, scratch, tag), i64::from),
        }
    }

    #[inline(never)]
    fn lookup(self, s: &Settings, cells: &[u16], tag: &[u8]) -> i64 {
        match self {
            Side::Engine => ENGINE.lookup(s, cells, tag),
            Side::Fast => signed(fast::lookup(s, cells, tag), i64::from),
            Side::Random => signed(displacement::lookup(*s, cells, tag), i64::from),
            _ => signed(table::lookup(*s, cells, tag), i64::from),
        }
    }

    #[inline(never)]
    fn release(self, s: &Settings, cells: &mut [u16], tag: &[u8]) -> i64 {
        match self {
            Side::Engine => ENGINE.release(s, cells, tag),
            _ => signed(table::release(*s, cells, tag), i64::from),
        }
    }

    #[inline(never)]
    fn file_length(self, s: &Settings, cells: &[u16]) -> i64 {
        match self {
            Side::Engine => ENGINE.file_length(s, cells),
            _ => signed(holdfile::file_length(*s, cells), |n| n as i64),
        }
    }

    #[inline(never)]
    fn file_write(self, s: &Settings, cells: &[u16], out: &mut [u8]) -> i64 {
        match self {
            Side::Engine => ENGINE.file_write(s, cells, out),
            Side::BranchFree => signed(branch_free::write(s, cells, out), |n| n as i64),
            Side::Fast => signed(fast::holdfile::write(s, cells, out), |n| n as i64),
            _ => signed(holdfile::write(*s, cells, out), |n| n as i64),
        }
    }

    #[inline(never)]
    fn file_read(self, bytes: &[u8], cells: &mut [u16]) -> i64 {
        match self {
            Side::Engine => ENGINE.file_read(bytes, cells, &mut [0; 6]),
            Side::BranchFree => signed(branch_free::read(bytes, cells), |_| 0),
            Side::Fast => signed(fast::holdfile::read(bytes, cells), |_| 0),
            _ => signed(holdfile::read(bytes, cells), |_| 0),
        }
    }

    #[inline(never)]
    fn file_convert(self, bytes: &[u8], out: &mut [u8]) -> i64 {
        match self {
            Side::Engine => ENGINE.file_convert(bytes, out),
            _ => signed(holdfile::convert(bytes, out), |n| n as i64),
        }
    }

    #[inline(never)]
    fn packed_write(self, s: &Settings, cells: &[u16], out: &mut [u8]) -> i64 {
        match self {
            Side::Engine => ENGINE.packed_write(s, cells, out),
            Side::Fast => signed(fast::packed::write(s, cells, out), |n| n as i64),
            _ => signed(packed::write(*s, cells, out), |n| n as i64),
        }
    }

    #[inline(never)]
    fn packed_read(self, s: &Settings, bytes: &[u8], cells: &mut [u16]) -> i64 {
        match self {
            Side::Engine => ENGINE.packed_read(s, bytes, cells),
            Side::Fast => signed(fast::packed::read(s, bytes, cells), |n| n as i64),
            _ => signed(packed::read(*s, bytes, cells), |n| n as i64),
        }
    }
}

/// Tags of twelve bytes, all different.
fn tags(from: u64, count: usize) -> Vec<[u8; 12]> {
    (from..from + count as u64)
        .map(|i| {
            let mut tag = *b"GB00........";
            tag[4..].copy_from_slice(&i.wrapping_mul(0x9e37_79b9_7f4a_7c15).to_le_bytes());
            tag
        })
        .collect()
}

/// Medians of nanoseconds over rounds in which the sides take turns.
fn medians<const N: usize>(
    run: Run,
    sides: [Side; N],
    mut measured: impl FnMut(Side) -> f64,
) -> [f64; N] {
    let mut times = [(); N].map(|()| Vec::new());
    for _ in 0..run.rounds {
        for (list, &side) in times.iter_mut().zip(&sides) {
            list.push(measured(side));
        }
    }
    times.map(|mut list| {
        list.sort_by(f64::total_cmp);
        list[run.rounds / 2]
    })
}

/// Takes an answer, so that the call which gave it is not left out.
fn used(answer: i64) {
    // The answer is there to be read.
    unsafe { ptr::read_volatile(&answer) };
}

fn timed(work: impl FnOnce()) -> f64 {
    let start = Instant::now();
    work();
    start.elapsed().as_nanos() as f64
}

const PLAIN_FORM: &str = "plain form";
const BRANCH_FREE: &str = "branch-free";
const FASTEST: &str = "fastest";
const RANDOM: &str = "random displacement";

/// The engine and another on a call: nanoseconds, or megabytes a second.
fn row(list: &str, call: &str, against: &str, unit: &str, engine: f64, other: f64) {
    println!("{list},{call},{against},{unit},{engine:.2},{other:.2}");
}

/// A time against each of the others.
fn time<const N: usize>(list: &str, call: &str, engine: f64, others: [(&str, f64); N]) {
    for (against, other) in others {
        row(list, call, against, "ns", engine, other);
    }
}

/// A speed against each of the others, from times for so many bytes.
fn speed<const N: usize>(
    list: &str,
    call: &str,
    bytes: usize,
    engine: f64,
    others: [(&str, f64); N],
) {
    let speed = |nanos: f64| bytes as f64 / nanos * 1_000.0;
    for (against, other) in others {
        row(list, call, against, "MB/s", speed(engine), speed(other));
    }
}

/// A table filled from nothing to a share of its cells.
fn filled(s: &Settings, share: f64, list: &[[u8; 12]]) -> (Memory, usize) {
    let mut memory = Memory::empty(s);
    let want = (memory.cells.len() as f64 * share) as usize;
    let held = list
        .iter()
        .take(want)
        .take_while(|tag| Side::Other.hold(s, &mut memory, *tag) >= 0)
        .count();
    (memory, held)
}

/// Nanoseconds for each of some holds. Where one is refused, it is the last.
fn holding(side: Side, s: &Settings, memory: &Memory, tags: &[[u8; 12]]) -> f64 {
    let mut memory = memory.clone();
    let mut done = 0;
    let nanos = timed(|| {
        for tag in tags {
            done += 1;
            if side.hold(s, &mut memory, tag) < 0 {
                break;
            }
        }
    });
    nanos / f64::from(done)
}

/// Holds from one load to another, or to the first refusal.
fn hold_rows(run: Run, name: &str, call: &str, s: &Settings, loads: [f64; 2], list: &[[u8; 12]]) {
    let (memory, start) = filled(s, loads[0], list);
    let end = (memory.cells.len() as f64 * loads[1]) as usize;
    let measured = |side| holding(side, s, &memory, &list[start..end]);
    // Random displacement ends before the others where they come to a refusal.
    if loads[1] > 1.0 {
        let [engine, other] = medians(run, [Side::Engine, Side::Other], measured);
        return time(name, call, engine, [(PLAIN_FORM, other)]);
    }
    let sides = [Side::Engine, Side::Other, Side::Random];
    let [engine, other, random] = medians(run, sides, measured);
    time(name, call, engine, [(PLAIN_FORM, other), (RANDOM, random)]);
}

/// Holds of the tags that random displacement still takes above 95 percent, with the one at which it
/// gives up.
fn last_rows(run: Run, name: &str, s: &Settings, list: &[[u8; 12]]) {
    let (memory, start) = filled(s, 0.95, list);
    let mut trial = memory.clone();
    let taken = list[start..]
        .iter()
        .take_while(|tag| Side::Random.hold(s, &mut trial, *tag) >= 0)
        .count();
    let tags = &list[start..=start + taken];
    let sides = [Side::Engine, Side::Random];
    let [engine, random] = medians(run, sides, |side| holding(side, s, &memory, tags));
    let call = "hold from 95 % until random displacement gives up";
    time(name, call, engine, [(RANDOM, random)]);
}

/// Holds that are refused, of a list at its first refusal: the mean, and the dearest of them. What
/// random displacement does to the list is taken back before the next.
fn refused_rows(run: Run, name: &str, s: &Settings, list: &[[u8; 12]]) {
    let (memory, held) = filled(s, 1.0, list);
    let mut trial = memory.clone();
    let tags: Vec<&[u8; 12]> = list[held..]
        .iter()
        .filter(|tag| Side::Other.forecast(s, &trial.cells, &mut trial.scratch, *tag) == -9)
        .take(100)
        .collect();
    let dearest = |side: Side, memory: &mut Memory| {
        let times = tags.iter().map(|tag| {
            let nanos = timed(|| used(side.hold(s, memory, *tag)));
            if side == Side::Random {
                memory.cells.copy_from_slice(&trial.cells);
            }
            nanos
        });
        times.fold((0.0, 0.0), |(sum, most): (f64, f64), nanos| {
            (sum + nanos, most.max(nanos))
        })
    };
    let sides = [Side::Engine, Side::Other, Side::Random];
    for (call, mean) in [("hold refused", true), ("hold refused the dearest", false)] {
        let [engine, other, random] = medians(run, sides, |side| {
            let (sum, most) = dearest(side, &mut memory.clone());
            if mean {
                sum / tags.len() as f64
            } else {
                most
            }
        });
        time(name, call, engine, [(PLAIN_FORM, other), (RANDOM, random)]);
    }
}

/// Nanoseconds for each of some lookups.
fn looking_up(side: Side, s: &Settings, cells: &[u16], tags: &[[u8; 12]]) -> f64 {
    let nanos = timed(|| {
        for tag in tags {
            used(side.lookup(s, cells, tag));
        }
    });
    nanos / tags.len() as f64
}

fn table_rows(run: Run, name: &str, s: &Settings) {
    let cells_in_all = 4 * s.buckets as usize;
    let list = tags(1, 2 * cells_in_all);
    let others = tags(1 << 40, 100_000);
    for (call, loads) in [
        ("hold empty to 50 %", [0.0, 0.5]),
        ("hold 50 to 90 %", [0.5, 0.9]),
        ("hold 90 to 95 %", [0.9, 0.95]),
        ("hold 95 % to the first 9", [0.95, 1.5]),
    ] {
        hold_rows(run, name, call, s, loads, &list);
    }
    last_rows(run, name, s, &list);
    refused_rows(run, name, s, &list);
    let (mut memory, held) = filled(s, 0.95, &list);
    let [engine, other] = medians(run, [Side::Engine, Side::Other], |side| {
        let nanos = timed(|| {
            for tag in &others {
                used(side.forecast(s, &memory.cells, &mut memory.scratch, tag));
            }
        });
        nanos / others.len() as f64
    });
    time(name, "forecast at 95 %", engine, [(PLAIN_FORM, other)]);
    // Held tags in the order in which they were held, and in one that has nothing to do with it.
    let in_order = &list[..held.min(100_000)];
    let mut mixed = list[..held].to_vec();
    Mix(1).shuffle(&mut mixed);
    mixed.truncate(100_000);
    for (call, tags) in [
        ("lookup held", in_order),
        ("lookup held in any order", &mixed),
        ("lookup clear", &others),
    ] {
        let sides = [Side::Engine, Side::Other, Side::Fast, Side::Random];
        let [engine, other, fast, random] =
            medians(run, sides, |side| looking_up(side, s, &memory.cells, tags));
        let against = [(PLAIN_FORM, other), (BRANCH_FREE, fast), (RANDOM, random)];
        time(name, call, engine, against);
    }
    let [engine, other] = medians(run, [Side::Engine, Side::Other], |side| {
        let mut cells = memory.cells.clone();
        let nanos = timed(|| {
            for tag in in_order {
                used(side.release(s, &mut cells, tag));
            }
        });
        nanos / in_order.len() as f64
    });
    time(name, "release", engine, [(PLAIN_FORM, other)]);
}

/// The two forms of a table filled to a share of its cells.
fn format_rows(run: Run, s: &Settings, percent: usize) {
    let name = &format!("plain {} width {} at {percent} %", s.buckets, s.width);
    let list = tags(1, 4 * s.buckets as usize);
    let (memory, _) = filled(s, percent as f64 / 100.0, &list);
    let cells = memory.cells;
    let mut out = vec![0; 1 << 20];
    let size = Side::Other.file_write(s, &cells, &mut out) as usize;
    let file = out[..size].to_vec();
    let mut table = cells.clone();
    let all = [Side::Engine, Side::Other, Side::BranchFree, Side::Fast];
    let two = [Side::Engine, Side::Other];
    let three = [Side::Engine, Side::Other, Side::Fast];

    let [engine, a, b, c] = medians(run, all, |side| {
        timed(|| used(side.file_write(s, &cells, &mut out)))
    });
    let against = [(PLAIN_FORM, a), (BRANCH_FREE, b), (FASTEST, c)];
    speed(name, "hold file write", size, engine, against);

    let [engine, a] = medians(run, two, |side| timed(|| used(side.file_length(s, &cells))));
    speed(name, "hold file length", size, engine, [(PLAIN_FORM, a)]);

    let [engine, a, b, c] = medians(run, all, |side| {
        timed(|| used(side.file_read(&file, &mut table)))
    });
    let against = [(PLAIN_FORM, a), (BRANCH_FREE, b), (FASTEST, c)];
    speed(name, "hold file read", size, engine, against);

    // the same cells as they were filed under a mask of no bit
    let former = Settings { rule: MASKED, ..*s };
    let size = former::write(former, &cells, &mut out).expect("such a mask was taken");
    let file = out[..size].to_vec();
    let [engine, a] = medians(run, two, |side| {
        timed(|| used(side.file_convert(&file, &mut out)))
    });
    speed(name, "hold file convert", size, engine, [(PLAIN_FORM, a)]);

    let size = Side::Other.packed_write(s, &cells, &mut out) as usize;
    let form = out[..size].to_vec();
    let [engine, a, b] = medians(run, three, |side| {
        timed(|| used(side.packed_write(s, &cells, &mut out)))
    });
    let against = [(PLAIN_FORM, a), (FASTEST, b)];
    speed(name, "packed form write", size, engine, against);

    let [engine, a, b] = medians(run, three, |side| {
        timed(|| used(side.packed_read(s, &form, &mut table)))
    });
    let against = [(PLAIN_FORM, a), (FASTEST, b)];
    speed(name, "packed form read", size, engine, against);
}

/// The cost of a hold and of a lookup by load: the load stands in the place of the call.
fn cost_rows(run: Run, rule: &str, s: &Settings) {
    let list = tags(1, 2 * 4 * s.buckets as usize);
    let others = tags(1 << 40, 50_000);
    let cells = 4 * s.buckets as usize;
    for percent in (0..90).step_by(5).chain(90..98) {
        let (memory, held) = filled(s, percent as f64 / 100.0, &list);
        if held < cells * percent / 100 {
            break;
        }
        let tags = &list[held..held + cells / 100];
        let mut trial = memory.clone();
        if tags
            .iter()
            .any(|tag| Side::Other.hold(s, &mut trial, tag) < 0)
        {
            break;
        }
        let mut trial = memory.clone();
        let goes_on = tags
            .iter()
            .all(|tag| Side::Random.hold(s, &mut trial, tag) >= 0);
        let measured = |side| holding(side, s, &memory, tags);
        let [engine, other, random] =
            medians(run, [Side::Engine, Side::Other, Side::Random], measured);
        let call = &format!("cost of a hold at {percent} %");
        time(rule, call, engine, [(PLAIN_FORM, other)]);
        if goes_on {
            time(rule, call, engine, [(RANDOM, random)]);
        }
        let [engine, other, random] =
            medians(run, [Side::Engine, Side::Other, Side::Random], |side| {
                looking_up(side, s, &memory.cells, &others)
            });
        let call = &format!("cost of a lookup at {percent} %");
        time(rule, call, engine, [(PLAIN_FORM, other), (RANDOM, random)]);
    }
}

fn one_run(run: Run) {
    println!("list,call,against,unit,engine,other");
    let most = run.buckets;
    let mask = (most - 1) & 0x0ff0;
    for (name, rule, buckets, mask) in [
        ("plain", PLAIN, most, 0),
        ("ring", RING, most, 0),
        ("ring", RING, most - 2, 0),
        ("masked", MASKED, most, mask),
    ] {
        let s = Settings::new(rule, WIDTH, buckets, mask);
        table_rows(run, &format!("{name} {buckets}"), &s);
    }
    for buckets in [most / 64, most / 16, most / 4, most] {
        let s = Settings::new(PLAIN, WIDTH, buckets, 0);
        let list = tags(1, 4 * buckets as usize);
        let name = &format!("plain {buckets}");
        hold_rows(run, name, "hold 85 to 90 %", &s, [0.85, 0.9], &list);
    }
    for width in [WIDTH, 12] {
        for percent in [95, 50] {
            format_rows(run, &Settings::new(PLAIN, width, most, 0), percent);
        }
    }
    for (name, rule, mask) in [
        ("plain", PLAIN, 0),
        ("ring", RING, 0),
        ("masked", MASKED, mask),
    ] {
        cost_rows(run, name, &Settings::new(rule, WIDTH, most, mask));
    }
}

fn main() {
    let arguments: Vec<String> = env::args().skip(1).collect();
    let words: Vec<&str> = arguments.iter().map(String::as_str).collect();
    match words[..] {
        [] => one_run(WHOLE),
        ["small"] => one_run(SMALL),
        ["together", folder, ref runs @ ..] if !runs.is_empty() => {
            let read = |path: &&str| {
                let text = fs::read_to_string(path).unwrap_or_else(|e| panic!("{path}: {e}"));
                Data::of("run", &text)
            };
            let runs: Vec<Data> = runs.iter().map(read).collect();
            for data in speed::together(&runs) {
                let written = data.write(Path::new(folder));
                written.unwrap_or_else(|e| panic!("{folder}: {e}"));
            }
        }
        _ => {
            eprintln!("usage: benchmark [small | together FOLDER FILE ..]");
            exit(1);
        }
    }
}
