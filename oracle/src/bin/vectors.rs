//! The requests on the index rules that the test program is run on, and their answers.
//!
//! `vectors requests` writes the requests, and `vectors answers` reads requests from standard
//! input and writes each with its answer.

use oracle::fnv_strings::KNOWN;
use oracle::index::{self, Settings, MASKED, PLAIN, RING};
use oracle::requests::{self, from_hex, listed, numbers, run, shown, to_hex, Mix, SALTS};
use std::collections::HashSet;
use std::io;

const RULES: [u32; 3] = [PLAIN, RING, MASKED];
const SIZES: [u32; 8] = [1, 2, 6, 10, 1_024, 4_096, 65_534, 65_536];
/// Those of the masked rule, which starts at four buckets.
const MASKED_SIZES: [u32; 9] = [1, 2, 4, 6, 8, 1_024, 4_096, 65_534, 65_536];

/// Bucket counts, good and bad, around the edges of the check.
const COUNTS: [u32; 28] = [
    0, 1, 2, 3, 4, 5, 6, 7, 8, 9, 10, 12, 1023, 1024, 1025, 4096, 32768, 49152, 65534, 65535,
    65536, 65537, 65538, 98304, 131072, 2147483648, 4294967294, 4294967295,
];

/// The requests in order, each once.
#[derive(Default)]
struct Requests {
    lines: Vec<String>,
    seen: HashSet<String>,
}

impl Requests {
    fn push(&mut self, line: String) {
        if self.seen.insert(line.clone()) {
            self.lines.push(line);
        }
    }

    fn hash(&mut self, bytes: &[u8]) {
        self.push(format!("hash {}", to_hex(bytes)));
    }

    fn settings(&mut self, s: Settings) {
        self.push(format!("settings {}", numbers(s)));
    }

    fn tag(&mut self, s: Settings, tag: &[u8]) {
        self.push(format!("tag {} {}", numbers(s), to_hex(tag)));
    }

    fn offset(&mut self, s: Settings, value: u16) {
        self.push(format!("offset {} {value}", numbers(s)));
    }

    fn candidates(&mut self, s: Settings, value: u16, bucket: u32) {
        self.push(format!("candidates {} {value} {bucket}", numbers(s)));
    }
}

fn hash_requests(out: &mut Requests, mix: &mut Mix) {
    for known in KNOWN {
        out.hash(&known.bytes());
    }
    for byte in [0x00, 0x01, 0x7f, 0x80, 0xff] {
        out.hash(&[byte]);
        out.hash(&[byte; 64]);
        out.hash(&[byte; 1_000]);
    }
    for length in [3, 7, 8, 9, 31, 255, 256, 257, 1_024, 1_997] {
        let bytes = mix.bytes(length);
        out.hash(&bytes);
    }
}

fn settings_requests(out: &mut Requests) {
    let max = u32::MAX;
    // One number at a time at its edges.
    for rule in [0, 1, 2, 3, 4, max] {
        // A mask that is good wherever there is one.
        let mask = u32::from(rule == MASKED);
        for width in [0, 3, 4, 12, 16, 17, max] {
            out.settings(Settings::new(rule, width, 4_096, mask));
        }
        for buckets in COUNTS {
            out.settings(Settings::new(rule, 12, buckets, mask));
        }
        for buckets in [1, 2, 4, 6, 8, 4_096, 65_536] {
            let last = buckets - 1;
            for mask in [0, 1, buckets / 2, last, buckets, buckets + 1, max] {
                out.settings(Settings::new(rule, 12, buckets, mask));
            }
            // The greatest that is good.
            if last > 0 {
                out.settings(Settings::new(rule, 12, buckets, last - 1));
            }
        }
    }
    // Several faults at once: the first in the order of the checks is the answer.
    for rule in [0, 1, 2, 3, max] {
        for width in [3, 4, 16, 17] {
            for buckets in [0, 1, 3, 6, 8, 65_537] {
                for mask in [0, 5, 8, max] {
                    out.settings(Settings::new(rule, width, buckets, mask));
                }
            }
        }
    }
}

/// A few good settings of each rule, and some refused by each of the four checks.
fn mixed_settings() -> Vec<Settings> {
    let mut all = vec![];
    for width in [4, 12, 16] {
        for buckets in [1, 2, 8, 1_024, 4_096, 65_536] {
            all.push(Settings::new(PLAIN, width, buckets, 0));
        }
        for buckets in [4, 8, 16, 1_024, 4_096, 65_536] {
            all.push(Settings::new(MASKED, width, buckets, buckets / 2));
        }
        for buckets in [2, 6, 10, 1_000, 65_534, 65_536] {
            all.push(Settings::new(RING, width, buckets, 0));
        }
    }
    all.extend([
        Settings::new(3, 12, 4_096, 0),
        Settings::new(PLAIN, 3, 4_096, 0),
        Settings::new(RING, 17, 4_096, 0),
        Settings::new(PLAIN, 12, 6, 0),
        Settings::new(RING, 12, 7, 0),
        Settings::new(MASKED, 12, 65_537, 0),
        Settings::new(PLAIN, 12, 4_096, 1),
        Settings::new(RING, 12, 6, 1),
        Settings::new(MASKED, 12, 4_096, 4_096),
        Settings::new(MASKED, 12, 4_096, 0),
        Settings::new(MASKED, 12, 4_096, 4_095),
        Settings::new(MASKED, 12, 2, 1),
        Settings::new(MASKED, 12, 1, 0),
    ]);
    all
}

fn tag_requests(out: &mut Requests, mix: &mut Mix) {
    for s in mixed_settings() {
        for length in [0, 1, 63, 64, 65] {
            let tag = mix.bytes(length);
            out.tag(s, &tag);
        }
        out.tag(s, b"foobar");
    }
    for width in 4..=16 {
        fingerprint_requests(out, mix, width);
    }
    for length in [66, 128, 256, 1_000] {
        let tag = mix.bytes(length);
        out.tag(Settings::new(PLAIN, 12, 4_096, 0), &tag);
    }
}

/// Tags by the low half of their hash: with the least fingerprint and the greatest; with low bits that
/// are all 0, all 1 or one less, where 2^w in place of 2^w - 1 would show; and any.
fn fingerprint_requests(out: &mut Requests, mix: &mut Mix, width: u32) {
    let last = (1u32 << width) - 1;
    let kinds: [&dyn Fn(u32) -> bool; 5] = [
        &|low| low % last == 0,
        &|low| low % last == last - 1,
        &|low| low & last == 0,
        &|low| low & last == last,
        &|low| low & last == last - 1,
    ];
    let short = |kind: &dyn Fn(u32) -> bool| -> [u8; 4] {
        (0..=u32::MAX)
            .map(u32::to_le_bytes)
            .find(|tag| kind(index::fnv1a(tag) as u32))
            .expect("every remainder has a short tag")
    };
    let mut tags: Vec<Vec<u8>> = kinds.iter().map(|kind| short(kind).to_vec()).collect();
    tags.extend([5, 15, 64].map(|length| mix.bytes(length)));
    for tag in tags {
        out.tag(Settings::new(PLAIN, width, 4_096, 0), &tag);
        out.tag(Settings::new(RING, width, 6, 0), &tag);
        out.tag(Settings::new(MASKED, width, 1_024, 77), &tag);
    }
}

/// Fingerprints at the edges of a width, and beyond: the rules hold for any 16-bit value.
fn edge_values(width: u32) -> Vec<u16> {
    let past = u16::try_from(1u32 << width).ok();
    let mut values = vec![0, 1, ((1u32 << width) - 1) as u16];
    values.extend(past);
    values.push(u16::MAX);
    values.dedup();
    values
}

fn offset_requests(out: &mut Requests, mix: &mut Mix) {
    for s in mixed_settings() {
        for value in edge_values(s.width.clamp(4, 16)) {
            out.offset(s, value);
        }
        out.offset(s, 256);
        out.offset(s, mix.draw() as u16);
    }
}

/// The first value from 1 on that has the offset d, if there is one.
fn value_with_offset(s: Settings, d: u32) -> Option<u16> {
    (1..=u16::MAX).find(|&value| index::offset(s, value) == Ok(d))
}

/// The first and the last bucket of the table and of each block of the ring.
fn edge_buckets(m: u32) -> [u32; 4] {
    let l = m / 2;
    [0, l.saturating_sub(1), l, m - 1]
}

/// Any mask that does work, where there is one.
fn working_mask(mix: &mut Mix, buckets: u32) -> u32 {
    1 + mix.below(u64::from(buckets.max(3) - 2))
}

fn candidates_requests(out: &mut Requests, mix: &mut Mix) {
    for rule in RULES {
        let sizes = match rule {
            MASKED => &MASKED_SIZES[..],
            _ => &SIZES,
        };
        for &buckets in sizes {
            let masks = match rule {
                MASKED => vec![
                    1,
                    buckets / 2,
                    buckets.saturating_sub(2),
                    working_mask(mix, buckets),
                    0,
                    buckets - 1,
                ],
                _ => vec![0],
            };
            for (i, &mask) in masks.iter().enumerate() {
                // One width is enough where only the mask differs: a width shows in its values.
                let widths: &[u32] = if i == 0 { &[4, 12, 16] } else { &[12] };
                for &width in widths {
                    candidates_of(out, mix, Settings::new(rule, width, buckets, mask));
                }
            }
        }
    }
    // Refused settings come before a refused bucket.
    for s in mixed_settings() {
        if s.check().is_err() {
            out.candidates(s, 1, 0);
            out.candidates(s, 1, u32::MAX);
        }
    }
    // The worked examples, by a value that has their offset.
    for (rule, buckets, mask, d, from) in [
        (PLAIN, 8, 0, 5, [6, 3]),
        (PLAIN, 8, 0, 3, [4, 7]),
        (RING, 10, 0, 4, [3, 7]),
        (MASKED, 16, 12, 13, [6, 10]),
    ] {
        let s = Settings::new(rule, 12, buckets, mask);
        let value = value_with_offset(s, d).expect("every small offset has a value");
        for bucket in from {
            out.candidates(s, value, bucket);
        }
    }
    // Small tables whole, from every bucket.
    for (rule, buckets, mask) in [
        (PLAIN, 8, 0),
        (RING, 6, 0),
        (RING, 10, 0),
        (MASKED, 16, 12),
        (MASKED, 8, 5),
    ] {
        let s = Settings::new(rule, 4, buckets, mask);
        for value in [1, 2, 7, 15] {
            for bucket in 0..buckets {
                out.candidates(s, value, bucket);
            }
        }
    }
    // Numbers anywhere in their ranges.
    for _ in 0..300 {
        let rule = mix.below(3);
        let buckets = match rule {
            PLAIN => 1 << mix.below(17),
            RING => 2 * (1 + mix.below(32_768)),
            _ => 4 << mix.below(15),
        };
        let mask = match rule {
            MASKED => working_mask(mix, buckets),
            _ => 0,
        };
        let s = Settings::new(rule, 4 + mix.below(13), buckets, mask);
        let bucket = mix.below(u64::from(buckets));
        out.candidates(s, mix.draw() as u16, bucket);
    }
}

fn candidates_of(out: &mut Requests, mix: &mut Mix, s: Settings) {
    if s.check().is_err() {
        for bucket in [0, s.buckets] {
            out.candidates(s, 1, bucket);
        }
        return;
    }
    let mut values = edge_values(s.width);
    values.extend(value_with_offset(s, 0));
    values.extend(value_with_offset(s, s.modulus() as u32 - 1));
    for value in values {
        for bucket in edge_buckets(s.buckets) {
            out.candidates(s, value, bucket);
        }
        let bucket = mix.below(u64::from(s.buckets));
        out.candidates(s, value, bucket);
    }
    for bucket in [s.buckets, s.buckets + 1, u32::MAX] {
        out.candidates(s, 1, bucket);
    }
}

/// The same four requests under salts.
fn salted_requests(out: &mut Requests, mix: &mut Mix) {
    let good = [
        Settings::new(PLAIN, 12, 4_096, 0),
        Settings::new(PLAIN, 16, 65_536, 0),
        Settings::new(RING, 16, 65_534, 0),
        Settings::new(RING, 12, 6, 0),
        Settings::new(MASKED, 4, 1_024, 77),
    ];
    for s in mixed_settings() {
        if s.check().is_err() {
            out.settings(s.with_salt(u64::MAX));
            out.tag(s.with_salt(1), b"foobar");
        }
    }
    for salt in SALTS {
        for s in good.map(|s| s.with_salt(salt)) {
            out.settings(s);
            for tag in [&b""[..], b"a", b"`", b"foobar", &[0], &[0xff; 9]] {
                out.tag(s, tag);
            }
            let tag = mix.bytes(15);
            out.tag(s, &tag);
            // No offset or candidate changes with the salt.
            for value in [1, 3_212, u16::MAX] {
                out.offset(s, value);
                out.candidates(s, value, 5);
            }
            out.candidates(s, 1, s.buckets);
        }
        for length in [63, 64, 65] {
            let tag = mix.bytes(length);
            out.tag(good[0].with_salt(salt), &tag);
        }
    }
    // Any salts, so that every digit of a request has every value.
    for _ in 0..60 {
        let s = good[mix.below(5) as usize].with_salt(mix.draw() >> mix.below(64));
        let length = 1 + mix.below(20) as usize;
        let tag = mix.bytes(length);
        out.tag(s, &tag);
    }
    // From 0 on, bytes of 0 leave the hash at 0, and at every width the fingerprint is 1.
    for width in 4..=16 {
        let s = Settings::new(PLAIN, width, 4_096, 0).with_salt(index::FNV_START);
        out.tag(s, &[0; 64]);
    }
}

fn requests() -> Vec<String> {
    let mut out = Requests::default();
    let mut mix = Mix(1);
    hash_requests(&mut out, &mut mix);
    settings_requests(&mut out);
    tag_requests(&mut out, &mut mix);
    offset_requests(&mut out, &mut mix);
    candidates_requests(&mut out, &mut mix);
    salted_requests(&mut out, &mut mix);
    out.lines
}

fn answer(request: &str) -> String {
    let fields: Vec<&str> = request.split(' ').collect();
    let number = |i: usize| -> u32 { fields[i].parse().expect("a number") };
    let value = |i: usize| -> u16 { fields[i].parse().expect("a 16-bit number") };
    let settings = || requests::settings(&fields);
    match fields[0] {
        "hash" => format!("{:016x}", index::fnv1a(&from_hex(fields[1]))),
        "settings" => shown(settings().check(), |()| "good".to_string()),
        "tag" => shown(
            index::entry(settings(), &from_hex(fields[6])),
            |(fingerprint, home)| format!("{fingerprint} {home}"),
        ),
        "offset" => shown(index::offset(settings(), value(6)), |d| d.to_string()),
        "candidates" => shown(index::candidates(settings(), value(6), number(7)), |list| {
            listed(&list)
        }),
        kind => panic!("no such request: {kind}"),
    }
}

fn main() -> io::Result<()> {
    run("vectors", requests, answer)
}

#[cfg(test)]
mod tests {
    use super::*;

    /// The test program reads into a fixed array, and cuts a hexadecimal field at 4,096 bytes.
    #[test]
    fn requests_fit_the_program() {
        let all = requests();
        assert!(all.iter().map(|line| line.len() + 1).sum::<usize>() < 250_000);
        assert!(all.iter().all(|line| line.len() <= 4_000));
    }

    #[test]
    fn answers_as_text() {
        assert_eq!(answer("hash "), "cbf29ce484222325");
        assert_eq!(answer("hash 666f6f626172"), "85944171f73967e8");
        assert_eq!(answer("settings 1 12 6 0 0"), "good");
        assert_eq!(answer("settings 1 12 6 0 18446744073709551615"), "good");
        assert_eq!(answer("settings 0 12 6 0 0"), "refused 3");
        assert_eq!(answer("settings 2 12 8 6 0"), "good");
        assert_eq!(answer("settings 2 12 8 7 0"), "refused 4");
        assert_eq!(answer("settings 2 12 7 6 0"), "refused 3");
        assert_eq!(answer("tag 0 12 4096 0 0 61"), "3377 3148");
        assert_eq!(answer("tag 0 12 4096 0 0 "), "refused 7");
        assert_eq!(answer("tag 0 12 4096 0 1 61"), "3812 3404");
        assert_eq!(answer("tag 0 12 4096 0 81985529216486895 61"), "668 1200");
        assert_eq!(answer("tag 0 12 4096 0 14695981039346656037 00"), "1 0");
        assert_eq!(answer("offset 0 12 1 0 0 65535"), "0");
        assert_eq!(answer("offset 0 12 4096 0 1 3212"), "2629");
        assert_eq!(answer("candidates 1 12 2 0 0 9 1"), "1 0");
        assert_eq!(answer("candidates 1 12 2 0 0 9 2"), "refused 8");
        assert_eq!(answer("candidates 0 12 4096 0 1 3212 3148"), "3148 1545");
    }
}
