//! The index rules: from settings and tag to fingerprint, home bucket, offset and candidates.

/// An answer, or the number of the check that refuses the call.
pub type Answer<T> = Result<T, u32>;

pub const PLAIN: u32 = 0;
pub const RING: u32 = 1;
pub const MASKED: u32 = 2;

/// Five numbers as a caller hands them over, good or bad, and as C's struct has them.
#[derive(Clone, Copy, Debug, PartialEq, Eq)]
#[repr(C)]
pub struct Settings {
    pub rule: u32,
    pub width: u32,
    pub buckets: u32,
    pub mask: u32,
    /// Any number is good.
    pub salt: u64,
}

impl Settings {
    /// Settings whose salt is 0.
    pub const fn new(rule: u32, width: u32, buckets: u32, mask: u32) -> Self {
        Settings {
            rule,
            width,
            buckets,
            mask,
            salt: 0,
        }
    }

    pub const fn with_salt(self, salt: u64) -> Self {
        Settings { salt, ..self }
    }

    #[inline]
    pub fn check(self) -> Answer<()> {
        self.former_check()?;
        if self.idle_mask() {
            return Err(4);
        }
        Ok(())
    }

    /// The check as it was when a mask that does no work was still taken.
    #[inline]
    pub fn former_check(self) -> Answer<()> {
        if ![PLAIN, RING, MASKED].contains(&self.rule) {
            return Err(1);
        }
        if !(4..=16).contains(&self.width) {
            return Err(2);
        }
        let shape = match self.rule {
            RING => self.buckets % 2 != 1,
            _ => self.buckets.is_power_of_two(),
        };
        if !(1..=65_536).contains(&self.buckets) || !shape {
            return Err(3);
        }
        let mask_fits = match self.rule {
            MASKED => self.mask < self.buckets,
            _ => self.mask == 0,
        };
        if !mask_fits {
            return Err(4);
        }
        Ok(())
    }

    /// Whether the mask does no work: it takes nothing of an offset, or all of it. Then the masked
    /// rule has the candidates of the plain one, some of them twice. The bucket count is not 0.
    #[inline]
    pub fn idle_mask(self) -> bool {
        self.rule == MASKED && (self.mask == 0 || self.mask == self.buckets - 1)
    }

    /// Home buckets and offsets are remainders by this number: a block of the ring, or all buckets.
    pub fn modulus(self) -> u64 {
        match self.rule {
            RING => u64::from(self.buckets) / 2,
            _ => u64::from(self.buckets),
        }
    }

    /// The remainder of a hash by the modulus, which but for the ring is a power of two.
    #[inline]
    pub(crate) fn reduce(self, hash: u64) -> u32 {
        match self.rule {
            RING => (hash % self.modulus()) as u32,
            _ => hash as u32 & (self.buckets - 1),
        }
    }

    /// The hash of a tag: the salt turns over bits of the start.
    #[inline]
    fn tag_hash(self, tag: &[u8]) -> u64 {
        fnv_from(FNV_START ^ self.salt, tag)
    }

    /// The offset of a value, which is the same under every salt.
    fn offset_unchecked(self, value: u16) -> u32 {
        self.reduce(fnv1a(&value.to_le_bytes()))
    }

    /// The candidates, in order, of an entry with offset `d` in bucket `b`.
    fn spread(self, d: u32, b: u32) -> Candidates {
        match self.rule {
            PLAIN => Candidates::two(b, b ^ d),
            RING => {
                let l = i64::from(self.buckets / 2);
                let (from, by) = (i64::from(b), i64::from(d));
                let other = if from < l {
                    l + (from + by).rem_euclid(l)
                } else {
                    (from - by).rem_euclid(l)
                };
                Candidates::two(b, other as u32)
            }
            _ => {
                let rest = self.buckets - 1 - self.mask;
                Candidates::four(b, b ^ (d & self.mask), b ^ (d & rest), b ^ d)
            }
        }
    }

    /// The candidates of a value in a bucket, where settings and bucket are known to be good.
    pub(crate) fn candidates_unchecked(self, value: u16, bucket: u32) -> Candidates {
        self.spread(self.offset_unchecked(value), bucket)
    }

    /// The fingerprint of a hash, of whose low half the remainders are spread over 1 to 2^w - 1. The
    /// division is one of 32 bits, which takes less time than one of 64.
    #[inline]
    fn fingerprint(self, hash: u64) -> u16 {
        (hash as u32 % ((1u32 << self.width) - 1) + 1) as u16
    }

    /// The fingerprint and the home bucket of a tag, where the settings are known to be good.
    #[inline]
    pub(crate) fn entry_unchecked(self, tag: &[u8]) -> Answer<(u16, u32)> {
        if tag.is_empty() || tag.len() > 64 {
            return Err(7);
        }
        let hash = self.tag_hash(tag);
        Ok((self.fingerprint(hash), self.reduce(hash >> 32)))
    }
}

/// Two or four candidates in order, with no heap.
#[derive(Clone, Copy, Debug)]
pub(crate) struct Candidates {
    list: [u32; 4],
    count: usize,
}

impl Candidates {
    fn two(a: u32, b: u32) -> Self {
        Candidates {
            list: [a, b, 0, 0],
            count: 2,
        }
    }

    fn four(a: u32, b: u32, c: u32, d: u32) -> Self {
        Candidates {
            list: [a, b, c, d],
            count: 4,
        }
    }

    pub(crate) fn as_slice(&self) -> &[u32] {
        &self.list[..self.count]
    }
}

/// The hash of no bytes.
pub const FNV_START: u64 = 14_695_981_039_346_656_037;

/// What bytes make of a hash that goes before them.
#[inline]
fn fnv_from(start: u64, bytes: &[u8]) -> u64 {
    bytes.iter().fold(start, |h, &b| {
        (h ^ u64::from(b)).wrapping_mul(1_099_511_628_211)
    })
}

/// The 64-bit FNV-1a hash.
#[inline]
pub fn fnv1a(bytes: &[u8]) -> u64 {
    fnv_from(FNV_START, bytes)
}

/// The fingerprint and the home bucket of a tag.
pub fn entry(settings: Settings, tag: &[u8]) -> Answer<(u16, u32)> {
    settings.check()?;
    settings.entry_unchecked(tag)
}

/// The offset of any 16-bit value.
pub fn offset(settings: Settings, value: u16) -> Answer<u32> {
    settings.check()?;
    Ok(settings.offset_unchecked(value))
}

/// The candidates, in order, of any 16-bit value in a bucket. Some may coincide.
pub fn candidates(settings: Settings, value: u16, bucket: u32) -> Answer<Vec<u32>> {
    settings.check()?;
    if bucket >= settings.buckets {
        return Err(8);
    }
    Ok(settings
        .candidates_unchecked(value, bucket)
        .as_slice()
        .to_vec())
}

#[cfg(test)]
mod tests {
    use super::*;
    use crate::fnv_strings::KNOWN;
    use crate::requests::Mix;
    use std::collections::HashSet;

    fn check(rule: u32, width: u32, buckets: u32, mask: u32) -> Answer<()> {
        Settings::new(rule, width, buckets, mask).check()
    }

    #[test]
    fn published_hashes() {
        for known in KNOWN {
            assert_eq!(fnv1a(&known.bytes()), known.2, "{:?}", known.0);
        }
    }

    #[test]
    fn settings_are_checked_in_order() {
        assert_eq!(check(3, 3, 0, 1), Err(1));
        assert_eq!(check(2, 17, 0, 1), Err(2));
        assert_eq!(check(2, 16, 0, 1), Err(3));
        assert_eq!(check(2, 16, 8, 8), Err(4));
        assert_eq!(check(2, 4, 8, 6), Ok(()));
        assert_eq!(check(0, 12, 4_096, 0), Ok(()));
        assert_eq!(check(0, 12, 4_096, 1), Err(4));
        // A mask that does no work, after what is wrong with the others.
        assert_eq!(check(3, 17, 3, 2), Err(1));
        assert_eq!(check(2, 17, 3, 2), Err(2));
        assert_eq!(check(2, 16, 3, 2), Err(3));
        assert_eq!(check(2, 16, 3, 0), Err(3));
        assert_eq!(check(2, 16, 0, 0), Err(3));
        assert_eq!(check(2, 16, 0, u32::MAX), Err(3));
        assert_eq!(check(2, 16, 65_537, 65_536), Err(3));
    }

    /// Every mask of small bucket counts, and those at the edges of large ones.
    #[test]
    fn masks() {
        for log in 0..=16 {
            let buckets = 1 << log;
            let mut works = 0;
            for mask in (0..300).chain(buckets - 1..buckets + 3).chain([u32::MAX]) {
                let s = Settings::new(MASKED, 12, buckets, mask);
                let former = if mask < buckets { Ok(()) } else { Err(4) };
                assert_eq!(s.former_check(), former, "{s:?}");
                let now = match (1..buckets - 1).contains(&mask) {
                    true => Ok(()),
                    false => Err(4),
                };
                assert_eq!(s.check(), now, "{s:?}");
                works += u32::from(now.is_ok());
            }
            assert_eq!(works == 0, buckets <= 2);
        }
        // The other rules have nothing to do with it.
        for (rule, buckets) in [(PLAIN, 1), (PLAIN, 2), (PLAIN, 4), (RING, 2), (RING, 6)] {
            for mask in [0, 1, buckets - 1, buckets] {
                let s = Settings::new(rule, 12, buckets, mask);
                let answer = if mask == 0 { Ok(()) } else { Err(4) };
                assert_eq!((s.check(), s.former_check()), (answer, answer), "{s:?}");
                assert!(!s.idle_mask());
            }
        }
    }

    #[test]
    fn bucket_counts() {
        for (rule, mask) in [(PLAIN, 0), (RING, 0), (MASKED, 1)] {
            assert_eq!(check(rule, 12, 65_536, mask), Ok(()));
            assert_eq!(check(rule, 12, 65_537, mask), Err(3));
            assert_eq!(check(rule, 12, 65_538, mask), Err(3));
        }
        assert_eq!(check(RING, 12, 6, 0), Ok(()));
        assert_eq!(check(PLAIN, 12, 6, 0), Err(3));
        assert_eq!(check(RING, 12, 5, 0), Err(3));
    }

    #[test]
    fn tag_lengths() {
        let settings = Settings::new(PLAIN, 12, 4_096, 0);
        assert_eq!(entry(settings, &[]), Err(7));
        assert_eq!(entry(settings, &[0; 65]), Err(7));
        assert!(entry(settings, &[0; 64]).is_ok());
        assert_eq!(entry(Settings::new(PLAIN, 12, 6, 0), &[]), Err(3));
    }

    #[test]
    fn fingerprint_and_home() {
        // "a" hashes to af63dc4c8601ec8c. By 2^w - 1 a number has the remainder that the sum of its
        // digits to the base 2^w has.
        assert_eq!(0x86 + 0x01e + 0xc8c, 3_376);
        let settings = Settings::new(PLAIN, 12, 4_096, 0);
        assert_eq!(entry(settings, b"a"), Ok((3_377, 0xc4c)));
        assert_eq!(0x8601 + 0xec8c, 0x1_728d);
        let ring = Settings::new(RING, 16, 10, 0);
        assert_eq!(entry(ring, b"a"), Ok((0x728f, 0xaf63_dc4c % 5)));
        // 8 + 6 + 0 + 1 + 14 + 12 + 8 + 12 is 61, and 6 * 10 + 1 is 61 too.
        let narrow = Settings::new(MASKED, 4, 16, 5);
        assert_eq!(entry(narrow, b"a"), Ok((2, 0xc)));
    }

    /// Every width, with the greatest fingerprint.
    fn widths() -> impl Iterator<Item = (Settings, u32)> {
        (4..=16).map(|width| (Settings::new(PLAIN, width, 4_096, 0), (1 << width) - 1))
    }

    /// The rule word by word, on numbers that are wide enough for all of it.
    fn by_word(settings: Settings, hash: u64) -> u16 {
        let remainder = u128::from(hash) % (1 << 32) % ((1 << settings.width) - 1);
        (1 + remainder).try_into().expect("16 bits")
    }

    #[test]
    fn fingerprints_at_the_edges() {
        for (s, last) in widths() {
            for (low, fingerprint) in [
                (0, 1),
                (1, 2),
                (last - 2, last - 1),
                (last - 1, last),
                // Neither 0 nor 2^w.
                (last, 1),
                (last + 1, 2),
                (2 * last - 1, last),
                (2 * last, 1),
                // 2^32 has the remainder 2^(32 mod w).
                (u32::MAX, 1 << (32 % s.width)),
            ] {
                // The upper half names the home bucket and nothing else.
                for high in [0, 1, last, 0x8000_0000, u32::MAX] {
                    let hash = u64::from(high) << 32 | u64::from(low);
                    assert_eq!(u32::from(s.fingerprint(hash)), fingerprint, "{hash:x}");
                }
            }
            // With the upper half left in, 2^32 would be the start of another row.
            assert_eq!(s.fingerprint(1 << 32), 1);
            assert_ne!((1u64 << 32) % u64::from(last), 0);
        }
    }

    #[test]
    fn fingerprints_word_by_word() {
        let mut mix = Mix(31);
        for (s, last) in widths() {
            let mut upper_half_matters = 0;
            for _ in 0..20_000 {
                let hash = mix.draw() >> mix.below(64);
                let fingerprint = s.fingerprint(hash);
                assert_eq!(fingerprint, by_word(s, hash), "{hash:x}");
                assert!((1..=last).contains(&fingerprint.into()));
                let whole = 1 + hash % u64::from(last);
                upper_half_matters += u32::from(whole != fingerprint.into());
            }
            assert!(upper_half_matters > 5_000, "{upper_half_matters}");
        }
    }

    /// In any 2^w - 1 low halves that follow each other each fingerprint comes up once. So over all
    /// 2^32 each comes up as often as the others, but for those of the last few, which are one more
    /// of each from 1 on.
    #[test]
    fn fingerprints_are_even() {
        let mut mix = Mix(32);
        for (s, last) in widths() {
            let mut prints = |from: u32, count: u32| -> Vec<u32> {
                let high = u64::from(mix.below(1 << 32)) << 32;
                (from..=from + (count - 1))
                    .map(|low| s.fingerprint(high | u64::from(low)).into())
                    .collect()
            };
            let all: Vec<u32> = (1..=last).collect();
            assert_eq!(prints(0, last), all);
            let rounds = u32::MAX / last;
            for from in [1, 77, last / 2, rounds / 2 * last, (rounds - 1) * last - 5] {
                let mut row = prints(from, last);
                row.sort_unstable();
                assert_eq!(row, all, "{from}");
            }
            // The last whole row, and what is left of 2^32 after it.
            assert_eq!(prints((rounds - 1) * last, last), all);
            let left = u32::MAX - rounds * last + 1;
            assert_eq!(prints(rounds * last, left), all[..left as usize]);
            assert_eq!(left, 1 << (32 % s.width));
        }
    }

    /// The same by counting, for low parts of fewer bits than 32.
    #[test]
    fn fewer_bits_are_even_too() {
        for (s, last) in widths() {
            for bits in 4..=18 {
                let mut counts = vec![0; last as usize];
                for low in 0..1u64 << bits {
                    counts[usize::from(s.fingerprint(low)) - 1] += 1;
                }
                let (times, left) = ((1 << bits) / last, (1 << bits) % last);
                for (i, count) in (0..).zip(counts) {
                    assert_eq!(count, times + u32::from(i < left), "{bits} {i}");
                }
            }
        }
    }

    /// And for all 32 bits, which takes a minute or two.
    #[test]
    #[ignore]
    fn all_low_halves_are_even() {
        for (s, last) in widths() {
            let mut counts = vec![0u32; last as usize];
            for low in 0..=u32::MAX {
                counts[usize::from(s.fingerprint(0xdead_beef << 32 | u64::from(low))) - 1] += 1;
            }
            let (times, left) = (
                (1u64 << 32) / u64::from(last),
                (1u64 << 32) % u64::from(last),
            );
            for (i, count) in (0..).zip(counts) {
                assert_eq!(u64::from(count), times + u64::from(i < left), "{i}");
            }
        }
    }

    const DEFAULTS: Settings = Settings::new(PLAIN, 12, 4_096, 0);

    /// Hashes of "a" that were worked out elsewhere, from the start with some of its bits turned over.
    const SALTED: [(u64, u64); 6] = [
        (1, 0xaf63_dd4c_8601_ee3f),
        (1 << 32, 0xaf63_ddff_8601_ec8c),
        (1 << 63, 0x2f63_dc4c_8601_ec8c),
        (u64::MAX, 0x509c_22b3_79fe_11c1),
        (0x0123_4567_89ab_cdef, 0x2c83_44b0_0160_8c91),
        // From 0: the byte times the prime.
        (FNV_START, 0x61 * 0x0100_0000_01b3),
    ];

    #[test]
    fn salts_go_to_the_start_by_xor() {
        for (salt, hash) in SALTED {
            let salted = DEFAULTS.with_salt(salt);
            assert_eq!(salted.tag_hash(b"a"), hash, "{salt:x}");
            let home = (hash >> 32) as u32 % 4_096;
            assert_eq!(entry(salted, b"a"), Ok((by_word(DEFAULTS, hash), home)));
        }
        assert_eq!(0x86 + 0x01e + 0xe3f + 1, 3_812);
        assert_eq!(entry(DEFAULTS.with_salt(1), b"a"), Ok((3_812, 0xd4c)));
        // A tag whose first byte has the same bit turned over is where the other was.
        assert_eq!(entry(DEFAULTS.with_salt(1), b"`"), Ok((3_377, 0xc4c)));
    }

    #[test]
    fn salt_0_is_the_hash_as_it_was() {
        assert_eq!(Settings::new(PLAIN, 12, 4_096, 0).salt, 0);
        for known in KNOWN {
            let bytes = known.bytes();
            assert_eq!(DEFAULTS.tag_hash(&bytes), known.2, "{:?}", known.0);
            assert_eq!(DEFAULTS.with_salt(9).with_salt(0).tag_hash(&bytes), known.2);
        }
    }

    #[test]
    fn offsets_and_candidates_have_no_salt() {
        for (salt, _) in SALTED {
            assert_eq!(offset(DEFAULTS.with_salt(salt), 3_212), Ok(2_629));
            for plain in [
                DEFAULTS,
                Settings::new(RING, 16, 65_534, 0),
                Settings::new(MASKED, 4, 1_024, 77),
            ] {
                let salted = plain.with_salt(salt);
                for value in (0..=u16::MAX).step_by(97) {
                    assert_eq!(offset(salted, value), offset(plain, value));
                    assert_eq!(candidates(salted, value, 3), candidates(plain, value, 3));
                }
            }
        }
    }

    #[test]
    fn no_salt_is_refused_and_none_mends_a_fault() {
        for (salt, _) in SALTED {
            assert_eq!(DEFAULTS.with_salt(salt).check(), Ok(()));
            let bad = Settings::new(3, 3, 0, 1).with_salt(salt);
            assert_eq!(bad.check(), Err(1));
            assert_eq!(entry(DEFAULTS.with_salt(salt), &[]), Err(7));
            assert_eq!(entry(DEFAULTS.with_salt(salt), &[0; 65]), Err(7));
        }
    }

    /// Tags of one length.
    fn herd() -> Vec<String> {
        (0..1_000).map(|i| format!("UK {:012}", i * i)).collect()
    }

    /// No bit of a hash comes from a higher one. So of a salt the low 32 bits alone decide the
    /// fingerprint, and where the count is a power of two those above the bits that name a bucket
    /// change nothing.
    #[test]
    fn high_bits_of_a_salt() {
        for (s, _) in widths() {
            for tag in herd() {
                let (fingerprint, home) = entry(s, tag.as_bytes()).unwrap();
                let salted = |salt| entry(s.with_salt(salt), tag.as_bytes()).unwrap();
                assert_eq!(salted(0xffff_ffff << 32).0, fingerprint);
                assert_eq!(salted(1 << 43), (fingerprint, home ^ 1 << 11));
                assert_eq!(salted(0x000f_ffff << 44), (fingerprint, home));
            }
        }
    }

    /// Each of the low 32 bits does. Where the lowest bit in which two salts differ is k, low halves
    /// differ by an odd multiple of 2^k, below 2^32. From k = 33 - w on that is no multiple of
    /// 2^w - 1, and every fingerprint is another; below it some stay.
    #[test]
    fn low_bits_of_a_salt() {
        let mut mix = Mix(33);
        let tags: Vec<Vec<u8>> = (0..1_000).map(|i| mix.bytes(1 + i % 64)).collect();
        for (s, _) in widths() {
            for bit in 0..32 {
                let print = |salt, tag: &[u8]| entry(s.with_salt(salt), tag).unwrap().0;
                let same = tags
                    .iter()
                    .filter(|tag| print(0, tag) == print(1 << bit, tag))
                    .count();
                let most = match bit + s.width >= 33 {
                    true => 0,
                    false => tags.len() / 4,
                };
                assert!(same <= most, "{} {bit}: {same}", s.width);
            }
        }
    }

    /// Salts that agree in their low eight bits move the hashes of all tags of one length by the same
    /// number. So their fingerprints go on round the row of 2^w - 1 by one of two numbers, and their
    /// home buckets by one of two that are 1 apart; which of the two, the carry out of the low half
    /// decides for both. Tags that had one fingerprint and one home bucket still do unless the carry
    /// parts them: a season's salt should differ there.
    #[test]
    fn salts_with_one_low_byte() {
        let herd = herd();
        let hash = |salt, tag: &String| DEFAULTS.with_salt(salt).tag_hash(tag.as_bytes());
        let moved = |from, to, tag: &String| hash(to, tag).wrapping_sub(hash(from, tag));
        for (from, to) in [
            (0, 256),
            (0, 0x0123_4567_89ab_cd00),
            (7, 0xff00_0000_0000_1207),
            (0, 1 << 32),
        ] {
            let by = moved(from, to, &herd[0]);
            assert!(herd.iter().all(|tag| moved(from, to, tag) == by));
            let (low, high) = (by % (1 << 32), by >> 32);
            let mut carried = 0;
            for (s, last) in widths() {
                for tag in &herd {
                    let carry = (hash(from, tag) % (1 << 32) + low) >> 32;
                    carried += carry;
                    let salted = |salt| entry(s.with_salt(salt), tag.as_bytes()).unwrap();
                    let (fingerprint, home) = salted(from);
                    // What a carry takes away is 2^32, with the remainder 2^(32 mod w).
                    let back = carry << (32 % s.width);
                    let last = u64::from(last);
                    let print = (u64::from(fingerprint) - 1 + low + last - back) % last + 1;
                    let bucket = (u64::from(home) + high + carry) % 4_096;
                    assert_eq!(salted(to), (print as u16, bucket as u32), "{to:x} {tag}");
                }
            }
            // Some are parted, but where the low halves stay.
            let all = 13 * herd.len() as u64;
            assert!((low == 0) == (carried == 0) && carried < all, "{to:x}");
        }
        for (from, to) in [(0, 1), (0, 0x0123_4567_89ab_cdef), (7, 6)] {
            let by = moved(from, to, &herd[0]);
            assert!(herd.iter().any(|tag| moved(from, to, tag) != by));
        }
    }

    /// What the last byte of a tag can do: it is put to the low bits of what goes before, and the low
    /// half is multiplied by 435 = 3 * 5 * 29. Of these, 3 divides 2^w - 1 where w is even, and 15
    /// does where 4 divides w. So tags that differ in their last digit alone have fingerprints that
    /// far apart, but for how often the product goes beyond 2^32, which is the same for nearly all
    /// digits. So of tags that count up many share a fingerprint at such a width, if it is small.
    #[test]
    fn the_last_byte_of_a_tag() {
        for (s, last) in widths().filter(|(s, _)| s.width % 2 == 0) {
            let step = if s.width % 4 == 0 { 15 } else { 3 };
            assert_eq!((last % step, 435 % step), (0, 0));
            for tag in herd() {
                let before = fnv1a(tag.as_bytes());
                let mut prints = HashSet::new();
                for digit in b'0'..=b'9' {
                    let (fingerprint, _) = entry(s, &[tag.as_bytes(), &[digit]].concat()).unwrap();
                    let low = (before ^ u64::from(digit)) % (1 << 32);
                    let beyond = (435 * low) >> 32;
                    assert_eq!((u64::from(fingerprint) - 1 + beyond) % u64::from(step), 0);
                    prints.insert(fingerprint);
                }
                // At width 4 it is the same one but for a digit that goes once more beyond.
                assert!(s.width > 4 || prints.len() <= 2, "{tag}: {prints:?}");
            }
        }
    }

    #[cfg(target_endian = "little")]
    #[test]
    fn laid_out_as_in_c() {
        let s = Settings::new(1, 2, 3, 4).with_salt(6 << 32 | 5);
        // As many bytes as six words, or this does not compile.
        let words: [u32; 6] = unsafe { std::mem::transmute(s) };
        assert_eq!(words, [1, 2, 3, 4, 5, 6]);
    }

    #[test]
    fn partners() {
        let plain = Settings::new(PLAIN, 12, 8, 0);
        assert_eq!(plain.spread(5, 6).as_slice(), [6, 3]);
        assert_eq!(plain.spread(3, 4).as_slice(), [4, 7]);
        let ring = Settings::new(RING, 12, 10, 0);
        assert_eq!(ring.spread(4, 3).as_slice(), [3, 7]);
        assert_eq!(ring.spread(4, 7).as_slice(), [7, 3]);
        let masked = Settings::new(MASKED, 12, 16, 12);
        assert_eq!(masked.spread(13, 6).as_slice(), [6, 10, 7, 11]);
        assert_eq!(masked.spread(13, 10).as_slice(), [10, 6, 11, 7]);
    }

    #[test]
    fn every_candidate_leads_to_the_same_set() {
        let set = |settings: Settings, d: u32, b: u32| {
            let mut list = settings.spread(d, b).as_slice().to_vec();
            list.sort_unstable();
            list.dedup();
            list
        };
        let mut all = vec![];
        for buckets in [1, 2, 4, 8, 16] {
            all.push(Settings::new(PLAIN, 12, buckets, 0));
            all.extend((1..buckets - 1).map(|m| Settings::new(MASKED, 12, buckets, m)));
        }
        all.extend((1..=12).map(|l| Settings::new(RING, 12, 2 * l, 0)));
        for settings in all {
            for d in 0..settings.modulus() as u32 {
                for b in 0..settings.buckets {
                    let here = set(settings, d, b);
                    for &c in &here {
                        assert!(c < settings.buckets);
                        assert_eq!(set(settings, d, c), here, "{settings:?} {d} {b}");
                    }
                }
            }
        }
    }

    /// The candidates with those left out that were listed before.
    fn each_once(list: &[u32]) -> Vec<u32> {
        let first_time = |&i: &usize| !list[..i].contains(&list[i]);
        (0..list.len())
            .filter(first_time)
            .map(|i| list[i])
            .collect()
    }

    /// Under a mask that does no work the candidates are those of the plain rule, in the same order.
    /// Under any other mask some entry has four.
    #[test]
    fn idle_masks_have_plain_candidates() {
        for log in 0..=6 {
            let buckets = 1 << log;
            let plain = Settings::new(PLAIN, 12, buckets, 0);
            for mask in 0..buckets {
                let masked = Settings::new(MASKED, 12, buckets, mask);
                let mut most = 0;
                for d in 0..buckets {
                    for b in 0..buckets {
                        let once = each_once(masked.spread(d, b).as_slice());
                        if masked.idle_mask() {
                            assert_eq!(once, each_once(plain.spread(d, b).as_slice()));
                        }
                        most = most.max(once.len());
                    }
                }
                assert_eq!(masked.idle_mask(), most < 4, "{masked:?}");
                assert_eq!(masked.idle_mask(), masked.check() == Err(4));
            }
        }
    }

    #[test]
    fn bucket_numbers() {
        let settings = Settings::new(RING, 12, 6, 0);
        assert_eq!(candidates(settings, 1, 6), Err(8));
        assert_eq!(candidates(settings, 1, u32::MAX), Err(8));
        assert!(candidates(settings, 1, 5).is_ok());
        assert_eq!(candidates(Settings::new(RING, 12, 5, 0), 1, 6), Err(3));
    }
}
