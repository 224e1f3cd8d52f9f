//! What the programs that write and answer requests have in common.

use crate::index::{Answer, Settings, FNV_START};
use std::io::{self, BufRead, Write};

/// A fixed sequence of numbers without a pattern (splitmix64).
pub struct Mix(pub u64);

impl Mix {
    pub fn draw(&mut self) -> u64 {
        self.0 = self.0.wrapping_add(0x9e37_79b9_7f4a_7c15);
        let z = (self.0 ^ (self.0 >> 30)).wrapping_mul(0xbf58_476d_1ce4_e5b9);
        let z = (z ^ (z >> 27)).wrapping_mul(0x94d0_49bb_1331_11eb);
        z ^ (z >> 31)
    }

    pub fn below(&mut self, n: u64) -> u32 {
        (self.draw() % n) as u32
    }

    pub fn bytes(&mut self, n: usize) -> Vec<u8> {
        (0..n).map(|_| self.draw() as u8).collect()
    }

    pub fn shuffle<T>(&mut self, list: &mut [T]) {
        for i in (1..list.len()).rev() {
            list.swap(i, self.below(i as u64 + 1) as usize);
        }
    }
}

/// Settings as a request names them, the salt last.
pub fn numbers(s: Settings) -> String {
    let Settings {
        rule,
        width,
        buckets,
        mask,
        salt,
    } = s;
    format!("{rule} {width} {buckets} {mask} {salt}")
}

/// The settings that the fields of a request from the second on name.
pub fn settings(fields: &[&str]) -> Settings {
    let number = |i: usize| -> u32 { fields[i].parse().expect("a number") };
    let salt: u64 = fields[5].parse().expect("a salt");
    Settings::new(number(1), number(2), number(3), number(4)).with_salt(salt)
}

/// Salts of one bit, of all bits, the start of the hash, which makes it 0, and some of any bits.
pub const SALTS: [u64; 9] = [
    1,
    1 << 32,
    1 << 63,
    u64::MAX,
    FNV_START,
    0x0123_4567_89ab_cdef,
    2_027,
    0xffff_ffff,
    0xd6e8_feb8_6659_fd93,
];

/// Masks that do work for so many buckets, ascending: the least and the greatest, two in the middle
/// of which each has the bits that the other lacks, and one between. One bucket or two have none.
pub fn masks(buckets: u32) -> Vec<u32> {
    let half = buckets / 2;
    let mut all = vec![
        1,
        buckets / 3,
        half.wrapping_sub(1),
        half,
        buckets.wrapping_sub(2),
    ];
    all.retain(|mask| (1..buckets - 1).contains(mask));
    all.sort_unstable();
    all.dedup();
    all
}

pub fn to_hex(bytes: &[u8]) -> String {
    bytes.iter().map(|b| format!("{b:02x}")).collect()
}

pub fn from_hex(text: &str) -> Vec<u8> {
    (0..text.len())
        .step_by(2)
        .map(|i| u8::from_str_radix(&text[i..i + 2], 16).expect("hexadecimal digits"))
        .collect()
}

/// Numbers with a space between.
pub fn listed<T: ToString>(list: &[T]) -> String {
    let list: Vec<String> = list.iter().map(T::to_string).collect();
    list.join(" ")
}

pub fn shown<T>(answer: Answer<T>, show: impl Fn(T) -> String) -> String {
    match answer {
        Ok(value) => show(value),
        Err(number) => format!("refused {number}"),
    }
}

/// The program `name`: with the word `requests` it writes the requests, and with `answers` it reads
/// requests from standard input and writes each with its answer.
pub fn run(
    name: &str,
    requests: impl Fn() -> Vec<String>,
    mut answer: impl FnMut(&str) -> String,
) -> io::Result<()> {
    let mut out = io::BufWriter::new(io::stdout().lock());
    match std::env::args().nth(1).as_deref() {
        Some("requests") => {
            for line in requests() {
                writeln!(out, "{line}")?;
            }
        }
        Some("answers") => {
            for line in io::stdin().lock().lines() {
                let line = line?;
                writeln!(out, "{line} = {}", answer(&line))?;
            }
        }
        _ => {
            eprintln!("usage: {name} requests | {name} answers");
            std::process::exit(2);
        }
    }
    out.flush()
}
