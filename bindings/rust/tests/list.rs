//! The list as its users see it. What only the boundary itself can meet is tested in `src/raw.rs`.

use holdlist::{HoldList, Refusal, Settings};

/// The number first: what follows it spreads its digits over the hash.
fn tag(i: usize) -> String {
    format!("{i} at the gate")
}

/// A list with so many tags, all of which find room.
fn list_of(settings: Settings, tags: usize) -> HoldList {
    let mut list = HoldList::new(settings).unwrap();
    for i in 0..tags {
        list.hold(tag(i)).unwrap();
    }
    list
}

/// As many of the tags as the list takes, and how many those are.
fn filled(settings: Settings) -> (HoldList, usize) {
    let mut list = HoldList::new(settings).unwrap();
    for i in 0.. {
        match list.hold(tag(i)) {
            Ok(_) => {}
            Err(refusal) => {
                assert_eq!(refusal, Refusal::Full);
                return (list, i);
            }
        }
    }
    unreachable!()
}

fn finds_all(list: &HoldList, tags: usize) -> bool {
    (0..tags).all(|i| list.is_held(tag(i)).unwrap())
}

const SALTS: [u64; 5] = [1, 2_027, 1 << 32, 1 << 63, u64::MAX];

// ── refusals ──

#[test]
fn every_refusal_has_its_number_and_says_what_it_means() {
    let numbers: Vec<u8> = Refusal::ALL.iter().map(|r| r.number()).collect();
    let all: Vec<u8> = (1..=9).chain(11..=20).chain([23, 24]).collect();
    assert_eq!(numbers, all);
    for refusal in Refusal::ALL {
        assert_eq!(Refusal::from_number(refusal.number()), Some(refusal));
        let says = refusal.to_string();
        assert_eq!(
            says,
            format!("refused with {}: {}", refusal.number(), refusal.meaning())
        );
        assert!(refusal.meaning().len() > 10);
    }
    for number in [0, 10, 21, 22, 25, 255] {
        assert_eq!(Refusal::from_number(number), None);
    }
    let error: Box<dyn std::error::Error> = Box::new(Refusal::Tag);
    assert_eq!(
        error.to_string(),
        "refused with 7: the tag has no byte or more than 64"
    );
}

#[test]
fn the_c_header_says_the_same_of_every_refusal() {
    let header = include_str!("../../c/holdlist.h");
    for refusal in Refusal::ALL {
        let says = format!("return \"{}\";", refusal.meaning());
        assert!(header.contains(&says), "{refusal}");
    }
    // each number once, by its name
    assert_eq!(
        header.matches("case -HOLDLIST_REFUSED_").count(),
        Refusal::ALL.len()
    );
}

#[test]
fn settings_are_refused_with_1_to_4_in_this_order() {
    let settings = |rule, width, buckets, mask| Settings {
        rule,
        width,
        buckets,
        mask,
        salt: 0,
    };
    let cases = [
        (settings(3, 3, 0, 1), Refusal::Rule),
        (settings(u32::MAX, 12, 8, 0), Refusal::Rule),
        (settings(0, 3, 0, 1), Refusal::Width),
        (settings(0, 17, 8, 0), Refusal::Width),
        (settings(0, 12, 0, 1), Refusal::Buckets),
        (settings(0, 12, 6, 0), Refusal::Buckets),
        (settings(1, 12, 7, 1), Refusal::Buckets),
        (settings(2, 12, 6, 0), Refusal::Buckets),
        (settings(0, 12, 65_537, 0), Refusal::Buckets),
        (settings(1, 12, 65_538, 0), Refusal::Buckets),
        (settings(2, 12, 131_072, 0), Refusal::Buckets),
        (settings(1, 12, u32::MAX - 1, 0), Refusal::Buckets),
        (settings(0, 12, 8, 1), Refusal::Mask),
        (settings(1, 12, 6, 1), Refusal::Mask),
        (settings(2, 12, 8, 8), Refusal::Mask),
        // masks of no bit and of every bit, and counts that have no other
        (settings(2, 12, 8, 0), Refusal::Mask),
        (settings(2, 12, 8, 7), Refusal::Mask),
        (settings(2, 12, 1, 0), Refusal::Mask),
        (settings(2, 12, 2, 0), Refusal::Mask),
        (settings(2, 12, 2, 1), Refusal::Mask),
    ];
    for (s, refusal) in cases {
        assert_eq!(s.check(), Err(refusal), "{s:?}");
        assert_eq!(HoldList::new(s), Err(refusal), "{s:?}");
        assert_eq!(HoldList::unpack(s, &[]), Err(refusal), "{s:?}");
        assert_eq!(s.fingerprint(""), Err(refusal), "{s:?}");
        assert_eq!(s.home(""), Err(refusal), "{s:?}");
        assert_eq!(s.offset(0), Err(refusal), "{s:?}");
        assert_eq!(s.candidates(0, u32::MAX), Err(refusal), "{s:?}");
        // no salt mends it
        assert_eq!(s.with_salt(u64::MAX).check(), Err(refusal), "{s:?}");
    }
    let good = [
        (0, 4, 1, 0),
        (0, 16, 65_536, 0),
        (1, 12, 2, 0),
        (1, 12, 6, 0),
        (2, 12, 4, 1),
        (2, 12, 16, 14),
    ];
    for (rule, width, buckets, mask) in good {
        let s = settings(rule, width, buckets, mask);
        assert_eq!(s.check(), Ok(()));
        for salt in SALTS {
            assert_eq!(s.with_salt(salt).check(), Ok(()), "{salt:x}");
        }
    }
}

#[test]
fn a_tag_of_bad_length_is_refused_with_7() {
    let mut list = list_of(Settings::default(), 10);
    let before = list.clone();
    for bad in [vec![], vec![1; 65], vec![1; 1000]] {
        assert_eq!(list.hold(&bad), Err(Refusal::Tag));
        assert_eq!(list.forecast(&bad), Err(Refusal::Tag));
        assert_eq!(list.copies(&bad), Err(Refusal::Tag));
        assert_eq!(list.is_held(&bad), Err(Refusal::Tag));
        assert_eq!(list.release(&bad), Err(Refusal::Tag));
        assert_eq!(list.settings().fingerprint(&bad), Err(Refusal::Tag));
        assert_eq!(list.settings().home(&bad), Err(Refusal::Tag));
    }
    assert_eq!(list, before);
    assert_eq!(list.len(), 10);
    for good in [vec![0; 1], vec![0; 64]] {
        assert_eq!(list.hold(&good), Ok(0));
        assert_eq!(list.copies(&good), Ok(1));
        assert_eq!(list.release(&good), Ok(true));
    }
    assert_eq!(list, before);
}

#[test]
fn a_bucket_that_is_not_there_is_refused_with_8() {
    for s in [
        Settings::plain(12, 8),
        Settings::ring(12, 10),
        Settings::masked(12, 16, 12),
    ] {
        let list = list_of(s, 5);
        for b in 0..s.buckets {
            let at = 4 * b as usize;
            assert_eq!(list.view(b), Ok(&list.cells()[at..at + 4]));
            assert_eq!(s.candidates(1, b).unwrap()[0], b);
        }
        for b in [s.buckets, s.buckets + 1, u32::MAX] {
            assert_eq!(list.view(b), Err(Refusal::Bucket));
            assert_eq!(s.candidates(1, b), Err(Refusal::Bucket));
        }
    }
}

#[test]
fn a_full_list_is_refused_with_9_and_stays() {
    for s in [Settings::plain(12, 1), Settings::ring(12, 2)] {
        let room = 4 * s.buckets as usize;
        let mut list = HoldList::new(s).unwrap();
        for _ in 0..room {
            list.hold("ewe").unwrap();
        }
        let before = list.clone();
        assert_eq!(list.forecast("ewe"), Err(Refusal::Full));
        assert_eq!(list.hold("ewe"), Err(Refusal::Full));
        assert_eq!((list.len(), list.stats().load), (room, 1.0));
        assert_eq!(list, before);
        assert_eq!(list.release("ewe"), Ok(true));
        assert_eq!(list.forecast("ewe"), Ok(0));
        assert_eq!(list.hold("ewe"), Ok(0));
    }
}

#[test]
fn a_damaged_hold_file_is_refused_with_its_number() {
    use Refusal::*;
    let cases: [(&[u8], Refusal); 37] = [
        (&[], Short),
        (&[0x40], Map), // a map bit above 5
        (&[0x46, 4, 0, 0, 0], Map),
        (&[0x66, 4, 0, 0, 0], Map),
        (&[0xf6, 4, 0, 0, 0], Map),
        // no map bit 5, and nothing else that is wrong; or a field that is cut, a default, the rule
        (&[0x00], OldFingerprints),
        (&[0x06, 4, 0, 0, 0], OldFingerprints),
        (&[0x06, 4], OldFingerprints),
        (&[0x06, 12, 0, 0, 0], OldFingerprints),
        (&[0x07, 3, 4, 0, 0, 0], OldFingerprints),
        (&[0x30], Short),                                   // the salt
        (&[0x36, 4, 0, 0, 1, 0, 0, 0, 0, 0, 0], Short),     // its last byte
        (&[0x36, 12, 0, 0, 0, 0, 0, 0, 0, 0, 0], Short),    // before what is wrong ahead of it
        (&[0x36, 4, 0, 0, 0, 0, 0, 0, 0, 0, 0, 0, 0], Map), // salt 0 is the default
        (&[0x27], Short),                                   // the rule
        (&[0x26, 4], Short),                                // the bucket count
        (&[0x26, 4, 0], Short),                             // its second byte
        (&[0x2f, 2, 4, 0, 0, 0], Short),                    // the mask's second byte
        (&[0x25, 0, 0, 0, 0], Map),                         // rule 0 is the default
        (&[0x26, 12, 0, 0, 0], Map),                        // so is width 12
        (&[0x26, 4, 0xff, 0x0f, 0], Map),                   // and 4096 buckets
        (&[0x2e, 4, 0, 0, 0, 0, 0], Map),                   // a mask under rule 0
        (&[0x27, 2, 4, 0, 0, 0], Map),                      // none under rule 2
        (&[0x27, 3, 4, 0, 0, 0], Rule),
        (&[0x26, 3, 0, 0, 0], Width),
        (&[0x26, 4, 2, 0, 0, 0, 0], Buckets), // three
        (&[0x27, 1, 4, 2, 0, 0, 0, 0], Buckets),
        (&[0x2f, 2, 4, 0, 0, 1, 0, 0], Mask),
        (&[0x2f, 2, 4, 3, 0, 0, 0, 0], Mask), // no bit
        (&[0x2f, 2, 4, 3, 0, 3, 0, 0], Mask), // every bit
        (&[0x26, 4, 0, 0], Short),            // the bucket's byte
        (&[0x26, 4, 0, 0, 0x01, 9], Short),   // half a fingerprint
        (&[0x26, 4, 1, 0, 0x00], Short),      // the second bucket
        (&[0x26, 4, 0, 0, 0x10], BucketByte),
        (&[0x26, 4, 0, 0, 0x01, 0, 0], Fingerprint),
        (&[0x26, 4, 0, 0, 0x01, 16, 0], Fingerprint),
        (&[0x26, 4, 0, 0, 0x00, 0], LeftOver),
    ];
    for (bytes, refusal) in cases {
        assert_eq!(HoldList::load(bytes), Err(refusal), "{bytes:02x?}");
    }
    // the first thirty by the header, which the others pass
    for (i, (bytes, refusal)) in cases.into_iter().enumerate() {
        match Settings::of_file(bytes) {
            Ok(s) => assert!(i >= 30 && s.check() == Ok(()), "{bytes:02x?}"),
            Err(r) => assert!(i < 30 && r == refusal, "{bytes:02x?}"),
        }
    }
}

/// The file of a list of rule 0 as it was under rule 2 with a mask: bits 0 and 3 of the map, the rule
/// before the other fields, and the mask before the salt.
fn under_mask(list: &HoldList, mask: u32) -> Vec<u8> {
    let file = list.save();
    let named = |bit: u8, bytes| usize::from(file[0] & bit != 0) * bytes;
    let salt = 1 + named(2, 1) + named(4, 2);
    let (head, rest) = file[1..].split_at(salt - 1);
    [&[file[0] | 9, 2], head, &(mask as u16).to_le_bytes(), rest].concat()
}

#[test]
fn a_file_of_a_mask_that_splits_nothing_is_converted() {
    let all = [
        Settings::default(),
        Settings::default().with_salt(7),
        Settings::plain(4, 1),
        Settings::plain(12, 2).with_salt(u64::MAX),
        Settings::plain(9, 64),
    ];
    for s in all {
        let list = list_of(s, s.buckets as usize);
        for mask in [0, s.buckets - 1] {
            let earlier = under_mask(&list, mask);
            assert_eq!(HoldList::load(&earlier), Err(Refusal::Mask), "{s:?}");
            let file = HoldList::convert(&earlier).unwrap();
            assert_eq!(file, list.save(), "{s:?}");
            assert_eq!(file.len() + 3, earlier.len());
            assert_eq!(HoldList::load(&file).as_ref(), Ok(&list));
            // bytes that are left over come before all else that is asked of it, and so does a cut
            let longer = [&earlier[..], &[0]].concat();
            assert_eq!(HoldList::convert(&longer), Err(Refusal::LeftOver));
            let shorter = &earlier[..earlier.len() - 1];
            assert_eq!(HoldList::convert(shorter), Err(Refusal::Short));
        }
        assert_eq!(HoldList::convert(&list.save()), Err(Refusal::NoConversion));
    }
    // a mask that splits offsets, and the ring; left over first
    for s in [Settings::masked(9, 64, 62), Settings::ring(12, 6)] {
        let file = list_of(s, 6).save();
        assert_eq!(HoldList::convert(&file), Err(Refusal::NoConversion));
        let longer = [&file[..], &[0]].concat();
        assert_eq!(HoldList::convert(&longer), Err(Refusal::LeftOver));
    }
    assert_eq!(HoldList::convert(&[]), Err(Refusal::Short));
    assert_eq!(HoldList::convert(&[0x0f]), Err(Refusal::OldFingerprints));
}

#[test]
fn a_damaged_packed_form_is_refused_with_its_number() {
    use Refusal::*;
    let four = Settings::plain(4, 1);
    let five = Settings::plain(5, 1);
    let cases: [(Settings, &[u8], Refusal); 6] = [
        (four, &[0x33], Short),
        (four, &[0x33, 0, 0], LeftOver),
        (four, &[0x24, 0x0f], Row),   // row 3876
        (four, &[0xff, 0xff], Row),   // a bad row before a filling bit
        (five, &[0x00, 0x10], Order), // 1, 0, 0, 0
        (four, &[0x33, 0x10], Filling),
    ];
    for (s, bytes, refusal) in cases {
        assert_eq!(HoldList::unpack(s, bytes), Err(refusal), "{bytes:02x?}");
    }
    assert_eq!(
        HoldList::unpack(four, &[0x23, 0x0f]).unwrap().cells(),
        [15; 4]
    );
}

// ── the rules ──

/// A fingerprint of the list's width with this offset.
fn with_offset(s: Settings, d: u32) -> u16 {
    (0..u16::MAX).find(|&p| s.offset(p).unwrap() == d).unwrap()
}

#[test]
fn candidates_are_those_of_the_worked_examples() {
    let plain = Settings::plain(12, 8);
    assert_eq!(plain.candidates(with_offset(plain, 5), 6).unwrap(), [6, 3]);
    assert_eq!(plain.candidates(with_offset(plain, 3), 4).unwrap(), [4, 7]);
    let ring = Settings::ring(12, 10);
    assert_eq!(ring.candidates(with_offset(ring, 4), 3).unwrap(), [3, 7]);
    assert_eq!(ring.candidates(with_offset(ring, 4), 7).unwrap(), [7, 3]);
    let masked = Settings::masked(12, 16, 12);
    assert_eq!(
        masked.candidates(with_offset(masked, 13), 6).unwrap(),
        [6, 10, 7, 11]
    );
    assert_eq!(
        masked.candidates(with_offset(masked, 13), 10).unwrap(),
        [10, 6, 11, 7]
    );
}

#[test]
fn pairs_meet_across_the_join_of_the_ring() {
    for half in [1, 2, 5, 7] {
        let s = Settings::ring(12, 2 * half);
        for d in 0..half {
            let p = with_offset(s, d);
            for b in 0..half {
                // d ahead in the other block, and past its end from its start on again
                let other = half + (b + d) % half;
                assert_eq!(s.candidates(p, b).unwrap(), [b, other]);
                assert_eq!(s.candidates(p, other).unwrap(), [other, b]);
            }
        }
    }
}

#[test]
fn relocations_across_the_join_lose_nothing() {
    for buckets in [2, 6, 10, 50, 1000] {
        let s = Settings::ring(12, buckets);
        let (mut list, held) = filled(s);
        assert!(finds_all(&list, held));
        assert_eq!(list.len(), held);
        if buckets > 2 {
            assert!(list.stats().longest > 0, "{buckets} buckets");
        }
        // every entry lies in its home bucket or across the ring from it
        for i in 0..held {
            let (p, home) = (s.fingerprint(tag(i)).unwrap(), s.home(tag(i)).unwrap());
            assert!(home < buckets / 2);
            let places = s.candidates(p, home).unwrap();
            assert!(places.iter().any(|&b| list.view(b).unwrap().contains(&p)));
        }
        for i in 0..held {
            assert_eq!(list.release(tag(i)), Ok(true));
        }
        assert!(list.is_empty() && list.cells().iter().all(|&c| c == 0));
    }
}

// ── saving and reading back ──

#[test]
fn a_saved_list_is_read_back() {
    let all = [
        Settings::default(),
        Settings::plain(4, 1),
        Settings::plain(16, 64),
        Settings::ring(12, 10),
        Settings::ring(5, 4096),
        Settings::masked(9, 32, 21),
        Settings::masked(12, 4096, 1),
        Settings::masked(12, 4096, 4094),
        Settings::default().with_salt(1),
        Settings::ring(5, 10).with_salt(u64::MAX),
        Settings::masked(9, 32, 21).with_salt(0x0123_4567_89ab_cdef),
    ];
    for s in all {
        for tags in [0, 1, s.buckets as usize * 2] {
            let list = list_of(s, tags);
            let bytes = list.save();
            assert_eq!(list.file_length(), bytes.len(), "{s:?}");
            let copy = HoldList::load(&bytes).unwrap();
            assert_eq!(copy, list, "{s:?}");
            assert_eq!((copy.len(), copy.settings()), (tags, s));
            assert_eq!(Settings::of_file(&bytes), Ok(s));
            assert_eq!(copy.save(), bytes);
            // a file that ends anywhere else is refused
            assert_eq!(
                HoldList::load(&bytes[..bytes.len() - 1]),
                Err(Refusal::Short)
            );
            let longer = [&bytes[..], &[0]].concat();
            assert_eq!(HoldList::load(&longer), Err(Refusal::LeftOver));
        }
    }
}

#[test]
fn a_packed_list_is_read_back_with_its_buckets_sorted() {
    for width in 4..=16 {
        for s in [
            Settings::plain(width, 1),
            Settings::plain(width, 32),
            Settings::ring(width, 10),
            Settings::masked(width, 16, 3),
            Settings::ring(width, 10).with_salt(2_027),
        ] {
            let list = list_of(s, s.buckets as usize * 2);
            let bytes = list.pack();
            assert_eq!(
                bytes.len(),
                (4 * (width as usize - 1) * s.buckets as usize + 7) / 8
            );
            let copy = HoldList::unpack(s, &bytes).unwrap();
            assert_eq!(copy.len(), list.len());
            assert!(finds_all(&copy, list.len()));
            for b in 0..s.buckets {
                let mut cells = list.view(b).unwrap().to_vec();
                cells.sort_unstable();
                assert_eq!(copy.view(b).unwrap(), cells);
            }
            assert_eq!(copy.pack(), bytes);
        }
    }
}

#[test]
fn a_list_goes_on_after_it_is_read_back() {
    let mut list = list_of(Settings::ring(12, 100), 300);
    let mut copy = HoldList::load(&list.save()).unwrap();
    for i in 300..390 {
        assert_eq!(list.hold(tag(i)), copy.hold(tag(i)));
    }
    for i in (0..390).step_by(3) {
        assert_eq!(list.release(tag(i)), copy.release(tag(i)));
    }
    assert_eq!(list, copy);
    assert_eq!(list.len(), copy.len());
}

// ── forecasts ──

/// Small lists, whose holds need moves before they are full.
const EVERY_RULE: [Settings; 4] = [
    Settings::plain(12, 64),
    Settings::ring(12, 50),
    Settings::masked(9, 32, 21),
    Settings::ring(16, 100).with_salt(2_027),
];

#[test]
fn a_forecast_is_what_the_hold_that_comes_next_answers() {
    for s in EVERY_RULE {
        let mut list = HoldList::new(s).unwrap();
        let mut refused = 0;
        for i in 0.. {
            // the one has scratch as it was made, the other as the last search left it
            let fresh = HoldList::load(&list.save()).unwrap().forecast(tag(i));
            let forecast = list.forecast(tag(i));
            assert_eq!(fresh, forecast, "{s:?}, tag {i}");
            assert_eq!(list.hold(tag(i)), forecast, "{s:?}, tag {i}");
            if forecast == Err(Refusal::Full) {
                // which makes room again
                assert_eq!(list.release(tag(refused)), Ok(true));
                refused += 1;
            }
            if refused == 30 {
                break;
            }
        }
        assert!(list.stats().longest > 1, "{s:?}");
    }
}

#[test]
fn a_forecast_changes_nothing() {
    for s in EVERY_RULE {
        let (mut list, held) = filled(s);
        for room in [false, true] {
            if room {
                assert_eq!(list.release(tag(0)), Ok(true));
                // read back, so that no hold of it has moved any entry
                list = HoldList::load(&list.save()).unwrap();
            }
            let before = list.clone();
            let all = |list: &mut HoldList| -> Vec<_> {
                (0..2 * held).map(|i| list.forecast(tag(i))).collect()
            };
            let answers = all(&mut list);
            assert_eq!(all(&mut list), answers, "{s:?}");
            assert_eq!(list.forecast(""), Err(Refusal::Tag));
            let moved = answers.iter().any(|a| matches!(a, Ok(moves) if *moves > 0));
            assert!(moved || !room, "{s:?}");
            assert!(room || answers[held] == Err(Refusal::Full), "{s:?}");
            assert_eq!(list, before);
            assert_eq!((list.len(), list.stats()), (before.len(), before.stats()));
        }
        assert_eq!(list.stats().longest, 0, "{s:?}");
    }
}

#[test]
fn the_length_is_that_of_the_file() {
    for s in EVERY_RULE {
        let mut list = HoldList::new(s).unwrap();
        let empty = list.file_length();
        for i in 0..5 * s.buckets as usize {
            let _ = list.hold(tag(i));
            if i % 4 == 3 {
                list.release(tag(i / 2)).unwrap();
            }
            assert_eq!(list.file_length(), list.save().len(), "{s:?}");
            assert_eq!(list.file_length(), empty + 2 * list.len(), "{s:?}");
        }
        list.clear();
        assert_eq!(list.file_length(), empty, "{s:?}");
    }
}

// ── salts ──

#[test]
fn salt_0_is_no_salt() {
    for s in [
        Settings::default(),
        Settings::ring(12, 10),
        Settings::masked(8, 16, 5),
    ] {
        assert_eq!((s.salt, s.with_salt(0)), (0, s));
        assert_eq!(s.with_salt(9).with_salt(0), s);
    }
    // "a" hashes to af63dc4c8601ec8c, and from the start with its lowest bit turned over to af63dd4c8601ee3f
    let s = Settings::default();
    // and by 4,095 a low half has the remainder of its digits to the base 4,096
    let print = 1 + 0x86 + 0x01e + 0xc8c;
    assert_eq!((s.fingerprint("a"), s.home("a")), (Ok(print), Ok(0xc4c)));
    let s = s.with_salt(1);
    let print = 1 + 0x86 + 0x01e + 0xe3f;
    assert_eq!((s.fingerprint("a"), s.home("a")), (Ok(print), Ok(0xd4c)));
}

#[test]
fn a_salt_turns_over_bits_of_the_start() {
    // those of its low byte are the same in the first byte of a tag
    let s = Settings::ring(16, 1000);
    for salt in SALTS {
        for (i, x) in (1..=255u8).enumerate() {
            let mut other = tag(i).into_bytes();
            other[0] ^= x;
            let (s, t) = (s.with_salt(salt), s.with_salt(salt ^ u64::from(x)));
            assert_eq!(t.fingerprint(tag(i)), s.fingerprint(&other));
            assert_eq!(t.home(tag(i)), s.home(&other));
        }
    }
}

#[test]
fn a_salt_changes_no_offset_and_no_candidate() {
    for s in [
        Settings::plain(12, 64),
        Settings::ring(12, 10),
        Settings::masked(12, 16, 12),
    ] {
        for salt in SALTS {
            for p in (0..u16::MAX).step_by(411) {
                assert_eq!(s.with_salt(salt).offset(p), s.offset(p));
                assert_eq!(s.with_salt(salt).candidates(p, 3), s.candidates(p, 3));
            }
        }
    }
}

#[test]
fn lists_of_different_salts_are_different_lists() {
    let s = Settings::ring(12, 1000);
    let plain = list_of(s, 3000);
    for salt in [2_027, 0x0123_4567_89ab_cdef, u64::MAX] {
        let list = list_of(s.with_salt(salt), 3000);
        assert_ne!(list, plain);
        // with the salt of another list these tags are found by chance alone
        let mistaken = HoldList::unpack(s, &list.pack()).unwrap();
        let found = (0..3000).filter(|&i| mistaken.is_held(tag(i)).unwrap());
        assert!(found.count() < 100, "{salt:x}");
        let again = HoldList::unpack(s.with_salt(salt), &list.pack()).unwrap();
        assert!(finds_all(&again, 3000));
        // empty lists with the same cells are not equal either
        assert_ne!(HoldList::new(s), HoldList::new(s.with_salt(salt)));
    }
}

#[test]
fn the_salt_travels_in_the_hold_file_and_not_in_the_packed_form() {
    let bytes = [
        0x36, 4, 0, 0, 0xef, 0xcd, 0xab, 0x89, 0x67, 0x45, 0x23, 0x01, 0x0a, 9, 0, 3, 0,
    ];
    let s = Settings::plain(4, 1).with_salt(0x0123_4567_89ab_cdef);
    assert_eq!(Settings::of_file(&bytes), Ok(s));
    let list = HoldList::load(&bytes).unwrap();
    assert_eq!((list.settings(), list.cells()), (s, &[0u16, 9, 0, 3][..]));
    assert_eq!(list.save(), bytes);
    // eight bytes and a bit of the map, beside a list without
    let plain = HoldList::load(&[0x26, 4, 0, 0, 0x0a, 9, 0, 3, 0]).unwrap();
    assert_eq!(plain.save().len() + 8, bytes.len());
    assert_eq!(list.pack(), plain.pack());
}

// ── sizes at the limit ──

#[test]
fn lists_of_the_largest_sizes_work() {
    for s in [
        Settings::plain(16, 65_536),
        Settings::ring(16, 65_536),
        Settings::ring(16, 65_534),
        Settings::masked(16, 65_536, 0xff00),
    ] {
        let tags = 4 * s.buckets as usize * 9 / 10;
        let mut list = list_of(s, tags);
        assert!(finds_all(&list, tags));
        assert_eq!(list.len(), tags);
        assert_eq!(list.cells().len(), 4 * s.buckets as usize);
        assert!(list.view(s.buckets - 1).is_ok());
        assert_eq!(list.view(s.buckets), Err(Refusal::Bucket));

        let bytes = list.save();
        assert_eq!(list.file_length(), bytes.len());
        assert_eq!(HoldList::load(&bytes).unwrap(), list);
        let packed = list.pack();
        let copy = HoldList::unpack(s, &packed).unwrap();
        assert_eq!(copy.len(), tags);
        assert!(finds_all(&copy, tags));

        for i in 0..tags {
            assert_eq!(list.release(tag(i)), Ok(true));
        }
        assert!(list.is_empty());
        assert_eq!(list.save().len(), bytes.len() - 2 * tags);
        assert_eq!(list.file_length(), bytes.len() - 2 * tags);
    }
}

// ── the list itself ──

#[test]
fn counts_are_those_of_the_cells() {
    let mut list = HoldList::new(Settings::masked(8, 16, 5)).unwrap();
    let count = |l: &HoldList| l.cells().iter().filter(|&&c| c != 0).count();
    for i in 0..200 {
        let _ = list.hold(tag(i % 70));
        assert_eq!(list.len(), count(&list));
        if i % 3 == 0 {
            let _ = list.release(tag(i / 2));
            assert_eq!(list.len(), count(&list));
        }
    }
    assert_eq!(list.stats().load, list.len() as f64 / 64.0);
    list.clear();
    assert_eq!((list.len(), count(&list), list.stats().longest), (0, 0, 0));
}

#[test]
fn a_tag_may_be_held_twice() {
    let mut list = HoldList::default();
    list.hold("ewe").unwrap();
    list.hold(b"ewe").unwrap();
    assert_eq!(list.len(), 2);
    assert_eq!((list.copies("ewe"), list.is_held("ewe")), (Ok(2), Ok(true)));
    assert_eq!(list.release("ewe"), Ok(true));
    assert_eq!((list.copies("ewe"), list.is_held("ewe")), (Ok(1), Ok(true)));
    assert_eq!(list.release("ewe"), Ok(true));
    assert_eq!(list.release("ewe"), Ok(false));
    assert_eq!(
        (list.copies("ewe"), list.is_held("ewe")),
        (Ok(0), Ok(false))
    );
}

#[test]
fn a_list_can_go_to_another_thread() {
    let list = list_of(Settings::default(), 100);
    let list = std::thread::spawn(move || {
        assert!(finds_all(&list, 100));
        list
    })
    .join()
    .unwrap();
    std::thread::scope(|scope| {
        for _ in 0..2 {
            scope.spawn(|| assert!(finds_all(&list, 100)));
        }
    });
}
