//! Interrupted holds, seen from the outside: another process holds a tag in a table that both share, one
//! machine instruction at a time, and in no table that it leaves on the way is a tag found less often than
//! before the hold.
//!
//! What is proved of interrupted holds is about a list of writes. That the compiled code makes such writes,
//! one cell each and none besides, no contract says, and it is tested here.

use engine::boundary::Engine;
use engine::make::{long, mask, one_of, salt, scratch};
use engine::seed;
use oracle::index::{self, Settings, MASKED, PLAIN, RING};
use oracle::model::Class;
use oracle::requests::Mix;
use oracle::table;
use std::ffi::c_void;
use std::io;
use std::os::raw::{c_int, c_long};
use std::ptr;

const NAME: &str = "single steps";
const ENGINE: Engine = Engine { null: false };

/// Cells of the largest table.
const CELLS: usize = 4 * 32;

/// No hold takes as many instructions.
const MOST: u64 = 1_000_000;

// ── the other process ──

const READ_WRITE: c_int = 3;
const SHARED_ANONYMOUS: c_int = 0x21;
const TRACE_ME: c_int = 0;
const SINGLE_STEP: c_int = 9;
const KILL: c_int = 9;
const STOP: c_int = 19;
const TRAP: c_int = 5;

/// The exit status of a process that may not be traced.
const UNTRACED: c_int = 77;

#[rustfmt::skip]
extern "C" {
    fn mmap(at: *mut c_void, length: usize, access: c_int, flags: c_int, file: c_int, offset: i64) -> *mut c_void;
    fn munmap(at: *mut c_void, length: usize) -> c_int;
    fn fork() -> c_int;
    fn ptrace(request: c_int, ...) -> c_long;
    fn waitpid(process: c_int, status: *mut c_int, options: c_int) -> c_int;
    fn kill(process: c_int, signal: c_int) -> c_int;
    fn raise(signal: c_int) -> c_int;
    fn _exit(status: c_int) -> !;
}

fn trace(request: c_int, process: c_int) -> c_long {
    let nothing: *mut c_void = ptr::null_mut();
    unsafe { ptrace(request, process, nothing, nothing) }
}

/// What the two processes share: the table, and the hold's answer as soon as it has one.
#[repr(C)]
struct Memory {
    answer: i64,
    table: [u16; CELLS],
}

const UNANSWERED: i64 = i64::MIN;

struct Shared(*mut Memory);

impl Shared {
    fn new() -> Self {
        let size = std::mem::size_of::<Memory>();
        let at = unsafe { mmap(ptr::null_mut(), size, READ_WRITE, SHARED_ANONYMOUS, -1, 0) };
        assert!(!at.is_null() && at as isize != -1, "no memory to share");
        Shared(at.cast())
    }

    fn table(&self) -> *mut u16 {
        unsafe { ptr::addr_of_mut!((*self.0).table).cast() }
    }

    fn cell(&self, i: usize) -> u16 {
        assert!(i < CELLS);
        unsafe { self.table().add(i).read_volatile() }
    }

    /// A table with no answer yet.
    fn put(&self, table: &[u16]) {
        assert!(table.len() <= CELLS);
        unsafe {
            ptr::copy_nonoverlapping(table.as_ptr(), self.table(), table.len());
            ptr::addr_of_mut!((*self.0).answer).write_volatile(UNANSWERED);
        }
    }

    fn answer(&self) -> Option<i64> {
        let answer = unsafe { ptr::addr_of!((*self.0).answer).read_volatile() };
        Some(answer).filter(|&answer| answer != UNANSWERED)
    }
}

impl Drop for Shared {
    fn drop(&mut self) {
        unsafe { munmap(self.0.cast(), std::mem::size_of::<Memory>()) };
    }
}

/// A process that makes one hold, stopped ahead of it. It ends with this value.
struct Stepped(c_int);

impl Stepped {
    fn new(s: &Settings, shared: &Shared, words: &mut [u32], tag: &[u8]) -> Self {
        let (memory, table, cells) = (shared.0, shared.table(), 4 * s.buckets as usize);
        let process = unsafe { fork() };
        if process == 0 {
            // Other threads of the tests may have left locks behind: nothing that takes one, as an
            // allocation does, may be done here.
            unsafe {
                if trace(TRACE_ME, 0) == -1 {
                    _exit(UNTRACED);
                }
                raise(STOP);
                let answer = ENGINE.hold_at(s, table, cells, words, tag);
                ptr::addr_of_mut!((*memory).answer).write_volatile(answer);
                loop {
                    raise(STOP);
                }
            }
        }
        assert!(process > 0, "no process: {}", io::Error::last_os_error());
        let mut stepped = Stepped(process);
        match stepped.wait() {
            Status::Stopped(STOP) => stepped,
            Status::Exited(UNTRACED) => panic!(
                "{NAME}: this machine does not let a process trace its child (ptrace), and without that a hold \
                 cannot be seen one instruction at a time"
            ),
            other => panic!("{NAME}: ahead of the hold the process {other:?}"),
        }
    }

    fn wait(&mut self) -> Status {
        let mut status = 0;
        while unsafe { waitpid(self.0, &mut status, 0) } == -1 {
            let error = io::Error::last_os_error();
            let again = error.kind() == io::ErrorKind::Interrupted;
            assert!(again, "{NAME}: cannot wait: {error}");
        }
        if status & 0x7f == 0x7f {
            return Status::Stopped(status >> 8 & 0xff);
        }
        // There is no such process any more.
        self.0 = 0;
        match status & 0x7f {
            0 => Status::Exited(status >> 8 & 0xff),
            signal => Status::Killed(signal),
        }
    }

    /// One instruction.
    fn step(&mut self) -> Status {
        if trace(SINGLE_STEP, self.0) == -1 {
            let error = io::Error::last_os_error();
            panic!("{NAME}: cannot make a process go one instruction on (ptrace): {error}");
        }
        self.wait()
    }
}

impl Drop for Stepped {
    fn drop(&mut self) {
        if self.0 > 0 {
            let mut status = 0;
            unsafe {
                kill(self.0, KILL);
                waitpid(self.0, &mut status, 0);
            }
        }
    }
}

/// How a process halts: stopped or killed by a signal, or with its exit status.
#[derive(Clone, Copy, Debug, PartialEq)]
enum Status {
    Stopped(c_int),
    Exited(c_int),
    Killed(c_int),
}

// ── histories ──

/// What was seen under a rule of the holds that were stepped through, so that a run which sees nothing fails.
#[derive(Default, Debug)]
struct Seen {
    instructions: u64,
    /// Instructions that changed the table.
    tables: u64,
    /// Lookups in the tables that they left.
    lookups: u64,
    /// Holds with no move, with one, two and more.
    moved: [u64; 4],
    refused: u64,
    /// Holds of which the table had a copy.
    again: u64,
}

struct History {
    number: u32,
    settings: Settings,
    table: Vec<u16>,
    /// Each tag that was ever held, once.
    tags: Vec<Vec<u8>>,
    /// The places there of those that are held now, each as often as it is held.
    held: Vec<usize>,
    holds: u32,
}

impl History {
    fn new(number: u32, settings: Settings) -> Self {
        History {
            number,
            settings,
            table: vec![0; 4 * settings.buckets as usize],
            tags: vec![],
            held: vec![],
            holds: 0,
        }
    }

    fn at(&self) -> String {
        let (seed, history, hold) = (seed::seed(), self.number, self.holds);
        format!(
            "{NAME}, SEED={seed:x}, history {history} with {:?}, hold {hold}",
            self.settings
        )
    }

    fn class(&self, tag: &[u8]) -> Class {
        let (fingerprint, home) = index::entry(self.settings, tag).unwrap();
        Class::of(self.settings, fingerprint, home).unwrap()
    }

    fn found(&self, tag: &[u8]) -> u32 {
        table::lookup(self.settings, &self.table, tag).unwrap()
    }

    /// How often each of the tags is found.
    fn copies(&self) -> Vec<u32> {
        self.tags.iter().map(|tag| self.found(tag)).collect()
    }

    /// Holds the tag one instruction at a time, and looks at each table that comes up.
    fn hold_stepped(
        &mut self,
        shared: &Shared,
        words: &mut [u32],
        tag: &[u8],
        seen: &mut Seen,
    ) -> i64 {
        let before = self.copies();
        let mut instruction = 0;
        let mut writes = 0;
        shared.put(&self.table);
        let mut process = Stepped::new(&self.settings, shared, words, tag);
        let answer = loop {
            let status = process.step();
            instruction += 1;
            if status != Status::Stopped(TRAP) || instruction == MOST {
                panic!("{}, instruction {instruction}: {status:?}", self.at());
            }
            let cells = 0..self.table.len();
            let changed: Vec<usize> = cells.filter(|&i| shared.cell(i) != self.table[i]).collect();
            if !changed.is_empty() {
                changed.iter().for_each(|&i| self.table[i] = shared.cell(i));
                let at = format!("{}, instruction {instruction}", self.at());
                for ((tag, was), is) in self.tags.iter().zip(&before).zip(self.copies()) {
                    assert!(
                        is >= *was,
                        "{at}: tag {tag:?} was found {was} times, now {is} times"
                    );
                }
                assert_eq!(
                    changed.len(),
                    1,
                    "{at}: the cells {changed:?} are written at once"
                );
                writes += 1;
                seen.lookups += before.len() as u64;
            }
            if let Some(answer) = shared.answer() {
                break answer;
            }
        };
        // One for each move and one for the tag, or fewer, where a cell gets the value that it had.
        let most = if answer < 0 { 0 } else { answer + 1 };
        assert!(
            writes <= most,
            "{}: {writes} writes, and the answer {answer}",
            self.at()
        );
        seen.instructions += instruction;
        seen.tables += writes as u64;
        match answer {
            0.. => seen.moved[answer.min(3) as usize] += 1,
            _ => seen.refused += 1,
        }
        answer
    }

    /// Holds the tag, and compares with the other implementation.
    fn hold(&mut self, mix: &mut Mix, shared: &Shared, tag: &[u8], seen: &mut Seen) {
        let s = self.settings;
        let (before, was) = (self.copies(), self.found(tag));
        let mut after = self.table.clone();
        let mut words = scratch(mix, s.buckets, after.len() / 2);
        let expected = table::hold(s, &mut after, &mut words.clone(), tag);
        // Stepping takes time: all holds of two moves and more, and of the others some.
        let stepped = match expected {
            Ok(0) => mix.below(12) == 0,
            Ok(1) => mix.below(3) == 0,
            Ok(_) => true,
            Err(_) => mix.below(16) == 0,
        };
        seen.again += u64::from(stepped && expected.is_ok() && was > 0);
        let answer = match stepped {
            true => self.hold_stepped(shared, &mut words, tag, seen),
            false => ENGINE.hold(&s, &mut self.table, &mut words, tag),
        };
        let at = self.at();
        assert_eq!(
            answer,
            expected.map_or_else(|n| -i64::from(n), i64::from),
            "{at}"
        );
        assert_eq!(self.table, after, "{at}");
        // One copy more, of the tag's class, and none where it is refused.
        let class = self.class(tag);
        let more = |other: &Vec<u8>| u32::from(answer >= 0 && self.class(other) == class);
        let copies = self
            .tags
            .iter()
            .zip(before)
            .map(|(other, n)| n + more(other));
        assert_eq!(self.copies(), copies.collect::<Vec<_>>(), "{at}");
        assert_eq!(self.found(tag), was + u32::from(answer >= 0), "{at}");
        if answer >= 0 {
            let known = self.tags.iter().position(|other| other == tag);
            self.held.push(known.unwrap_or(self.tags.len()));
            if known.is_none() {
                self.tags.push(tag.to_vec());
            }
        }
        self.holds += 1;
    }

    fn release(&mut self, mix: &mut Mix) {
        let i = mix.below(self.held.len() as u64) as usize;
        let tag = &self.tags[self.held.swap_remove(i)];
        let answer = ENGINE.release(&self.settings, &mut self.table, tag);
        assert_eq!(answer, 1, "{}: the release of {tag:?} before it", self.at());
    }

    /// A new tag, or one that is held.
    fn some_tag(&self, mix: &mut Mix) -> Vec<u8> {
        if mix.below(8) == 0 && !self.held.is_empty() {
            return self.tags[one_of(mix, &self.held)].clone();
        }
        let length = 1 + mix.below(12) as usize;
        mix.bytes(length)
    }

    /// Fills the table and keeps it nearly full, which makes for long paths.
    fn run(&mut self, mix: &mut Mix, shared: &Shared, seen: &mut Seen) {
        let cells = self.table.len();
        for _ in 0..cells + 50 {
            if cells - self.held.len() <= mix.below(3) as usize {
                self.release(mix);
            }
            let tag = self.some_tag(mix);
            self.hold(mix, shared, &tag, seen);
        }
    }
}

/// The lists of each rule, by width and bucket count.
const LISTS: [(u32, [(u32, u32); 5]); 3] = [
    (PLAIN, [(12, 8), (4, 16), (8, 16), (16, 16), (12, 32)]),
    (RING, [(12, 10), (5, 16), (8, 16), (12, 16), (16, 22)]),
    (MASKED, [(12, 8), (4, 16), (6, 16), (12, 16), (16, 32)]),
];

#[test]
fn no_tag_is_missing_after_any_instruction() {
    let mut mix = seed::mix(NAME);
    let shared = Shared::new();
    let mut number = 0;
    let mut refused = 0;
    for (rule, lists) in LISTS {
        let mut seen = Seen::default();
        for (width, buckets) in (0..long()).flat_map(|_| lists) {
            let mask = match rule {
                MASKED => mask(&mut mix, buckets),
                _ => 0,
            };
            let s = Settings::new(rule, width, buckets, mask).with_salt(salt(&mut mix));
            History::new(number, s).run(&mut mix, &shared, &mut seen);
            number += 1;
        }
        seed::tell(NAME, &format!(": rule {rule}, {seen:?}"));
        let enough = seen
            .moved
            .iter()
            .zip([5, 5, 10, 2])
            .all(|(&n, least)| n >= least);
        assert!(
            enough && seen.tables >= 100 && seen.again >= 3,
            "rule {rule}: too little: {seen:?}"
        );
        refused += seen.refused;
    }
    assert!(refused > 0, "no refused hold was stepped through");
}
