//! The reference model: the entries as a multiset of classes, with no cells and no search.

use crate::index::{self, Answer, Settings};

/// How many entries a bucket takes.
const CAPACITY: usize = 4;

/// A fingerprint with its candidate set, ascending, each bucket once.
#[derive(Clone, Debug, PartialEq, Eq, PartialOrd, Ord)]
pub struct Class {
    pub fingerprint: u16,
    pub buckets: Vec<u32>,
}

impl Class {
    /// The class of a fingerprint that stands in a bucket.
    pub fn of(settings: Settings, fingerprint: u16, bucket: u32) -> Answer<Self> {
        let mut buckets = index::candidates(settings, fingerprint, bucket)?;
        buckets.sort_unstable();
        buckets.dedup();
        Ok(Class {
            fingerprint,
            buckets,
        })
    }
}

/// The entries that were held and not released, in no order that means anything.
#[derive(Clone, Debug)]
pub struct Model {
    settings: Settings,
    entries: Vec<Class>,
}

impl Model {
    pub fn new(settings: Settings) -> Self {
        Model {
            settings,
            entries: vec![],
        }
    }

    /// The class of a tag, once the checks that concern it have passed.
    fn class(&self, tag: &[u8], scratch: Option<usize>) -> Answer<Class> {
        self.settings.check()?;
        match scratch {
            Some(n) if n < 2 * self.settings.buckets as usize => return Err(6),
            _ => {}
        }
        let (fingerprint, home) = index::entry(self.settings, tag)?;
        Class::of(self.settings, fingerprint, home)
    }

    /// A hold that is lent so many words of scratch.
    pub fn hold(&mut self, tag: &[u8], scratch: usize) -> Answer<()> {
        let class = self.class(tag, Some(scratch))?;
        self.entries.push(class);
        if !assignable(&self.entries, self.settings.buckets) {
            self.entries.pop();
            return Err(9);
        }
        Ok(())
    }

    pub fn release(&mut self, tag: &[u8]) -> Answer<bool> {
        let class = self.class(tag, None)?;
        let found = self.entries.iter().position(|entry| *entry == class);
        if let Some(i) = found {
            self.entries.swap_remove(i);
        }
        Ok(found.is_some())
    }

    /// How many entries the tag's class has.
    pub fn lookup(&self, tag: &[u8]) -> Answer<u32> {
        let class = self.class(tag, None)?;
        let copies = self.entries.iter().filter(|&entry| *entry == class);
        Ok(copies.count() as u32)
    }

    /// The entries, ascending.
    pub fn entries(&self) -> Vec<Class> {
        let mut all = self.entries.clone();
        all.sort_unstable();
        all
    }
}

/// Whether there is a layout: a bucket of its own set for every entry, with room for four in each.
/// The matching is built from nothing, by one augmenting path for each entry.
pub fn assignable(entries: &[Class], buckets: u32) -> bool {
    let mut given = vec![vec![]; buckets as usize];
    (0..entries.len()).all(|entry| {
        let mut tried = vec![false; buckets as usize];
        augment(entries, &mut given, &mut tried, entry)
    })
}

/// Gives a bucket to the entry, where need be by giving others to those that have one.
fn augment(entries: &[Class], given: &mut [Vec<usize>], tried: &mut [bool], entry: usize) -> bool {
    for &bucket in &entries[entry].buckets {
        let bucket = bucket as usize;
        if tried[bucket] {
            continue;
        }
        tried[bucket] = true;
        if given[bucket].len() < CAPACITY {
            given[bucket].push(entry);
            return true;
        }
        for seat in 0..CAPACITY {
            let other = given[bucket][seat];
            if augment(entries, given, tried, other) {
                given[bucket][seat] = entry;
                return true;
            }
        }
    }
    false
}

#[cfg(test)]
mod tests {
    use super::*;

    fn class(buckets: &[u32]) -> Class {
        Class {
            fingerprint: 1,
            buckets: buckets.to_vec(),
        }
    }

    /// Whether some choice of buckets is a layout, by trying them all.
    fn by_trial(entries: &[Class], room: &mut [usize]) -> bool {
        let (first, rest) = match entries.split_first() {
            Some(parts) => parts,
            None => return true,
        };
        first.buckets.iter().any(|&bucket| {
            let bucket = bucket as usize;
            if room[bucket] == 0 {
                return false;
            }
            room[bucket] -= 1;
            let good = by_trial(rest, room);
            room[bucket] += 1;
            good
        })
    }

    #[test]
    fn small_layouts() {
        assert!(assignable(&[], 1));
        assert!(assignable(&vec![class(&[0]); 4], 1));
        assert!(!assignable(&vec![class(&[0]); 5], 1));
        assert!(assignable(&vec![class(&[0, 1]); 8], 2));
        assert!(!assignable(&vec![class(&[0, 1]); 9], 2));
        // Four that can only go to 0 come last, and the others give way.
        let mut entries = vec![class(&[0, 1]); 4];
        entries.extend(vec![class(&[0]); 4]);
        assert!(assignable(&entries, 2));
        entries.push(class(&[0]));
        assert!(!assignable(&entries, 3));
    }

    #[test]
    fn matching_is_trial_of_all_choices() {
        let mut mix = crate::requests::Mix(7);
        let (mut good, mut bad) = (0, 0);
        for _ in 0..2_000 {
            let buckets = 1 + mix.below(3);
            // One bucket or two for each, so that a layout often fails.
            let entries: Vec<Class> = (0..4 * buckets - mix.below(2))
                .map(|_| {
                    let one = mix.below(u64::from(buckets));
                    let other = match mix.below(3) {
                        0 => mix.below(u64::from(buckets)),
                        _ => one,
                    };
                    let mut list = vec![one.min(other), one.max(other)];
                    list.dedup();
                    class(&list)
                })
                .collect();
            let answer = by_trial(&entries, &mut vec![CAPACITY; buckets as usize]);
            assert_eq!(assignable(&entries, buckets), answer, "{entries:?}");
            if answer {
                good += 1;
            } else {
                bad += 1;
            }
        }
        assert!(good > 300 && bad > 300, "{good} {bad}");
    }
}
