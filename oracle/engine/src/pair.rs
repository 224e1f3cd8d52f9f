//! The engine and the other implementation side by side.

use crate::boundary::{self, Engine, Words};
use crate::seed;
use oracle::index::{self, Answer, Settings};
use oracle::requests::Mix;
use oracle::{holdfile, packed, table};
use std::fmt::Debug;

/// Elements on either side of what is lent that no call may touch.
const EDGE: usize = 16;

/// A call, but for what is lent with it.
#[derive(Clone, Copy, Debug)]
pub enum Call<'a> {
    Check,
    Fingerprint(&'a [u8]),
    Home(&'a [u8]),
    Offset(u16),
    Candidates(u16, u32),
    Clear,
    Lookup(&'a [u8]),
    Release(&'a [u8]),
    Hold(&'a [u8]),
    Forecast(&'a [u8]),
    View(u32),
    FileWrite,
    FileLength,
    FileRead,
    FileConvert,
    PackedWrite,
    PackedRead,
}

/// The settings, and how much of each buffer is lent.
#[derive(Clone, Copy, Debug)]
pub struct Lend {
    pub settings: Settings,
    pub cells: usize,
    pub words: usize,
    pub input: usize,
    pub room: usize,
}

impl Lend {
    /// What good settings ask for, with no input and no room for output.
    pub fn of(settings: Settings) -> Self {
        Lend {
            settings,
            cells: 4 * settings.buckets as usize,
            words: 2 * settings.buckets as usize,
            input: 0,
            room: 0,
        }
    }

    pub fn input(self, input: usize) -> Self {
        Lend { input, ..self }
    }

    pub fn room(self, room: usize) -> Self {
        Lend { room, ..self }
    }
}

/// A buffer of each side, with the same elements but for what a call may leave.
struct Twin<T> {
    engine: Vec<T>,
    other: Vec<T>,
    from: usize,
}

impl<T: Copy + PartialEq + Debug> Twin<T> {
    /// A buffer of which as many as `size` can be lent.
    fn new(size: usize, from: usize, mut fill: impl FnMut() -> T) -> Self {
        let other: Vec<T> = (0..from + size + EDGE).map(|_| fill()).collect();
        Twin {
            engine: other.clone(),
            other,
            from,
        }
    }

    fn size(&self) -> usize {
        self.other.len() - self.from - EDGE
    }

    /// The parts that are lent, the engine's first.
    fn parts(&mut self, count: usize) -> (&mut [T], &mut [T]) {
        assert!(count <= self.size(), "no {count} elements to lend");
        let range = self.from..self.from + count;
        (&mut self.engine[range.clone()], &mut self.other[range])
    }

    fn put(&mut self, at: usize, values: &[T]) {
        let (engine, other) = self.parts(at + values.len());
        engine[at..].copy_from_slice(values);
        other[at..].copy_from_slice(values);
    }

    fn get(&self) -> &[T] {
        &self.other[self.from..self.from + self.size()]
    }

    /// Where the two differ first, with what the engine's has and the other.
    fn difference(&self, name: &str) -> Option<String> {
        if self.engine == self.other {
            return None;
        }
        let differ = |&i: &usize| self.engine[i] != self.other[i];
        let i = (0..self.other.len()).find(differ)?;
        Some(format!(
            "{name} {}: {:?} for {:?}",
            i as i64 - self.from as i64,
            self.engine[i],
            self.other[i]
        ))
    }
}

/// An answer as the C library gives it.
fn number<T>(answer: Answer<T>, value: impl FnOnce(T) -> i64) -> i64 {
    match answer {
        Ok(good) => value(good),
        Err(number) => -i64::from(number),
    }
}

/// Both sides, the buffers that they are lent, and how many calls there were.
pub struct Pair {
    name: String,
    pub mix: Mix,
    tag: Twin<u8>,
    table: Twin<u16>,
    /// The engine's scratch, and what it was before the call.
    scratch: Twin<u32>,
    oracle_scratch: Vec<u32>,
    input: Twin<u8>,
    out: Twin<u8>,
    calls: u64,
    refused: [u64; 25],
}

impl Pair {
    /// The sides of a test, which is generated from the seed.
    pub fn new(name: &str) -> Self {
        let mut mix = seed::mix(name);
        let mut pair = Pair {
            name: name.to_string(),
            tag: Twin::new(1 << 10, EDGE + 1, || mix.draw() as u8),
            table: Twin::new(0, EDGE, || 0),
            scratch: Twin::new(0, EDGE, || 0),
            oracle_scratch: vec![],
            input: Twin::new(0, EDGE, || 0),
            out: Twin::new(0, EDGE, || 0),
            mix,
            calls: 0,
            refused: [0; 25],
        };
        pair.size(0, 0, 0);
        pair
    }

    /// Makes room for so much, and fills it with anything.
    pub fn size(&mut self, cells: usize, words: usize, bytes: usize) {
        let mix = &mut self.mix;
        // Only bytes may stand anywhere.
        let [a, b] = [0; 2].map(|_| EDGE + mix.below(8) as usize);
        self.table = Twin::new(cells, EDGE, || mix.draw() as u16);
        self.scratch = Twin::new(words, EDGE, || mix.draw() as u32);
        self.oracle_scratch = (0..words).map(|_| mix.draw() as u32).collect();
        self.input = Twin::new(bytes, a, || mix.draw() as u8);
        self.out = Twin::new(bytes, b, || mix.draw() as u8);
    }

    pub fn table(&self) -> &[u16] {
        self.table.get()
    }

    pub fn set_table(&mut self, at: usize, cells: &[u16]) {
        self.table.put(at, cells);
    }

    pub fn set_scratch(&mut self, words: &[u32]) {
        self.scratch.put(0, words);
    }

    /// What the engine's scratch holds.
    pub fn scratch(&self) -> &[u32] {
        &self.scratch.engine[self.scratch.from..][..self.scratch.size()]
    }

    pub fn set_input(&mut self, at: usize, bytes: &[u8]) {
        self.input.put(at, bytes);
    }

    pub fn input(&self) -> &[u8] {
        self.input.get()
    }

    pub fn out(&self) -> &[u8] {
        self.out.get()
    }

    /// Makes the call on both sides and compares all that it leaves. The answer is the one that
    /// both gave, a refusal as its number below 0.
    pub fn run(&mut self, lend: Lend, call: Call) -> i64 {
        let s = lend.settings;
        let engine = Engine {
            null: self.mix.below(2) == 0,
        };
        if let Call::Fingerprint(tag)
        | Call::Home(tag)
        | Call::Lookup(tag)
        | Call::Release(tag)
        | Call::Hold(tag)
        | Call::Forecast(tag) = call
        {
            self.tag.put(0, tag);
        }
        let dirt: [u32; 4] = std::array::from_fn(|_| self.mix.draw() as u32);
        let mut few = Twin::new(6, 4, || dirt[0]);
        few.put(
            0,
            &[dirt[1], dirt[2], !dirt[1], !dirt[2], dirt[3], !dirt[3]],
        );
        let (few_engine, few_oracle) = few.parts(6);
        let few_engine: &mut Words = few_engine.try_into().expect("six are lent");

        let (found, expected) = match call {
            Call::Check => (engine.settings_check(&s), number(s.check(), |()| 0)),
            Call::Fingerprint(tag) => {
                let (mine, other) = self.tag.parts(tag.len());
                let answer = index::entry(s, other);
                let expected = number(answer, |(fingerprint, _)| fingerprint.into());
                (engine.fingerprint(&s, mine), expected)
            }
            Call::Home(tag) => {
                let (mine, other) = self.tag.parts(tag.len());
                let expected = number(index::entry(s, other), |(_, home)| home.into());
                (engine.home(&s, mine), expected)
            }
            Call::Offset(value) => {
                let expected = number(index::offset(s, value), i64::from);
                (engine.offset(&s, value), expected)
            }
            Call::Candidates(value, bucket) => {
                let answer = index::candidates(s, value, bucket);
                // Four places are lent, and those past the candidates become 0.
                if let Ok(list) = &answer {
                    few_oracle[..4].fill(0);
                    few_oracle[..list.len()].copy_from_slice(list);
                }
                let expected = number(answer, |list| list.len() as i64);
                let four = (&mut few_engine[..4]).try_into().expect("four are lent");
                (engine.candidates(&s, value, bucket, four), expected)
            }
            Call::Clear => {
                let (mine, other) = self.table.parts(lend.cells);
                let expected = number(table::clear(s, other), |()| 0);
                (engine.clear(&s, mine), expected)
            }
            Call::Lookup(tag) => {
                let (mine, other) = self.table.parts(lend.cells);
                let (my_tag, tag) = self.tag.parts(tag.len());
                let expected = number(table::lookup(s, other, tag), i64::from);
                (engine.lookup(&s, mine, my_tag), expected)
            }
            Call::Release(tag) => {
                let (mine, other) = self.table.parts(lend.cells);
                let (my_tag, tag) = self.tag.parts(tag.len());
                let expected = number(table::release(s, other, tag), i64::from);
                (engine.release(&s, mine, my_tag), expected)
            }
            Call::Hold(tag) => {
                let (mine, other) = self.table.parts(lend.cells);
                let (my_tag, tag) = self.tag.parts(tag.len());
                let (scratch, before) = self.scratch.parts(lend.words);
                let oracle_scratch = &mut self.oracle_scratch[..lend.words];
                let expected = number(table::hold(s, other, oracle_scratch, tag), i64::from);
                let found = engine.hold(&s, mine, scratch, my_tag);
                // Only these refusals come before scratch is free to use.
                if !(-7..=-1).contains(&expected) {
                    before.copy_from_slice(scratch);
                }
                (found, expected)
            }
            Call::Forecast(tag) => {
                let (mine, other) = self.table.parts(lend.cells);
                let (my_tag, tag) = self.tag.parts(tag.len());
                let (scratch, before) = self.scratch.parts(lend.words);
                let oracle_scratch = &mut self.oracle_scratch[..lend.words];
                let expected = number(table::forecast(s, other, oracle_scratch, tag), i64::from);
                let found = engine.forecast(&s, mine, scratch, my_tag);
                // As after a hold.
                if !(-7..=-1).contains(&expected) {
                    before.copy_from_slice(scratch);
                }
                (found, expected)
            }
            Call::View(bucket) => {
                let (mine, other) = self.table.parts(lend.cells);
                let expected = -i64::from(table::view_check(s, other, bucket));
                (engine.view_check(&s, mine, bucket), expected)
            }
            Call::FileWrite => {
                let (mine, other) = self.table.parts(lend.cells);
                let (my_out, out) = self.out.parts(lend.room);
                let expected = number(holdfile::write(s, other, out), |n| n as i64);
                (engine.file_write(&s, mine, my_out), expected)
            }
            Call::FileLength => {
                let (mine, other) = self.table.parts(lend.cells);
                let expected = number(holdfile::file_length(s, other), |n| n as i64);
                (engine.file_length(&s, mine), expected)
            }
            Call::FileRead => {
                let (mine, other) = self.table.parts(lend.cells);
                let (my_input, input) = self.input.parts(lend.input);
                let expected = number(holdfile::read(input, other), |s| {
                    few_oracle.copy_from_slice(&boundary::words(s));
                    0
                });
                (engine.file_read(my_input, mine, few_engine), expected)
            }
            Call::FileConvert => {
                let (my_input, input) = self.input.parts(lend.input);
                let (my_out, out) = self.out.parts(lend.room);
                let expected = number(holdfile::convert(input, out), |n| n as i64);
                (engine.file_convert(my_input, my_out), expected)
            }
            Call::PackedWrite => {
                let (mine, other) = self.table.parts(lend.cells);
                let (my_out, out) = self.out.parts(lend.room);
                let expected = number(packed::write(s, other, out), |n| n as i64);
                (engine.packed_write(&s, mine, my_out), expected)
            }
            Call::PackedRead => {
                let (mine, other) = self.table.parts(lend.cells);
                let (my_input, input) = self.input.parts(lend.input);
                let expected = number(packed::read(s, input, other), |n| n as i64);
                (engine.packed_read(&s, my_input, mine), expected)
            }
        };

        self.calls += 1;
        if found != expected {
            self.fail(lend, call, format!("answer: {found} for {expected}"));
        }
        if expected < 0 {
            self.refused[-expected as usize] += 1;
        }
        let difference = few
            .difference("word")
            .or_else(|| self.tag.difference("byte of the tag"))
            .or_else(|| self.table.difference("cell"))
            .or_else(|| match call {
                Call::Hold(_) | Call::Forecast(_) => self.scratch.difference("word of scratch"),
                Call::FileWrite | Call::PackedWrite => self.out.difference("byte of the output"),
                Call::FileRead | Call::PackedRead => self.input.difference("byte of the input"),
                Call::FileConvert => self
                    .input
                    .difference("byte of the input")
                    .or_else(|| self.out.difference("byte of the output")),
                _ => None,
            });
        if let Some(difference) = difference {
            self.fail(lend, call, difference);
        }
        found
    }

    fn fail(&self, lend: Lend, call: Call, what: String) -> ! {
        panic!(
            "{}, SEED={:x}, call {}: {call:?} with {lend:?}: the engine's {what}",
            self.name,
            seed::seed(),
            self.calls
        );
    }

    /// Says how many calls there were, and makes sure that each of these refusals was among them.
    pub fn done(self, refusals: &[usize]) {
        let list: Vec<String> = (1..self.refused.len())
            .filter(|&n| self.refused[n] != 0)
            .map(|n| format!("{n}: {}", self.refused[n]))
            .collect();
        let said = format!(": {} calls; refused {}", self.calls, list.join(", "));
        seed::tell(&self.name, &said);
        for &number in refusals {
            assert!(
                self.refused[number] > 0,
                "no call was refused with {number}"
            );
        }
    }
}
