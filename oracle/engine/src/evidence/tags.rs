//! The tags that lists are filled with.

use oracle::requests::Mix;

/// How tags are made.
#[derive(Clone, Copy, PartialEq)]
pub enum Kind {
    /// Sixteen hexadecimal digits without a pattern.
    Differ,
    /// The tags of one herd: a beginning that all have, and a number that counts up.
    CountUp,
    /// The same, each written backwards, so that what differs comes first.
    Backwards,
}

/// Beginnings of herds' tags, long and short.
pub const HERDS: [&str; 8] = [
    "UK 639951",
    "UK 102834",
    "IE 204817",
    "FR 45120983",
    "DE 09312",
    "NL 5587",
    "ewe",
    "tag",
];

impl Kind {
    /// As the data has it.
    pub fn name(self) -> &'static str {
        match self {
            Kind::Differ => "differ",
            Kind::CountUp => "count up",
            Kind::Backwards => "backwards",
        }
    }

    /// The tags of a list, none of which comes twice.
    pub fn tags(self, list: usize) -> Tags {
        match self {
            Kind::Differ => Tags::Differ(Mix(list as u64)),
            Kind::CountUp => Tags::CountUp(HERDS[list], 0),
            Kind::Backwards => Tags::Backwards(HERDS[list], 0),
        }
    }
}

/// The tags of a list, one after the other, without end.
pub enum Tags {
    /// What is drawn does not repeat in 2^64 draws.
    Differ(Mix),
    CountUp(&'static str, u32),
    Backwards(&'static str, u32),
}

/// A tag with the room that the longest takes.
#[derive(Clone, Copy)]
pub struct Tag {
    bytes: [u8; 20],
    length: usize,
}

impl Tag {
    pub fn of(text: &[u8]) -> Self {
        let mut bytes = [0; 20];
        bytes[..text.len()].copy_from_slice(text);
        Tag {
            bytes,
            length: text.len(),
        }
    }

    pub fn bytes(&self) -> &[u8] {
        &self.bytes[..self.length]
    }
}

impl Iterator for Tags {
    type Item = Tag;

    fn next(&mut self) -> Option<Tag> {
        Some(match self {
            Tags::Differ(mix) => {
                let drawn = mix.draw();
                let mut digits = [0; 16];
                for (i, digit) in digits.iter_mut().enumerate() {
                    *digit = b"0123456789abcdef"[(drawn >> (4 * i)) as usize % 16];
                }
                Tag::of(&digits)
            }
            Tags::CountUp(herd, number) => {
                *number += 1;
                Tag::of(numbered(herd, *number).as_bytes())
            }
            Tags::Backwards(herd, number) => {
                *number += 1;
                let letters: Vec<u8> = numbered(herd, *number).bytes().rev().collect();
                Tag::of(&letters)
            }
        })
    }
}

fn numbered(herd: &str, number: u32) -> String {
    format!("{herd} {number:05}")
}
