//! Lists that are only looked up, and the buckets of a list one after the other.

use holdlist::{Buckets, HoldList, LookupList, Refusal, Settings};
use std::mem::{size_of, size_of_val};

fn tag(i: usize) -> String {
    format!("{i} at the gate")
}

const EVERY_RULE: [Settings; 5] = [
    Settings::plain(12, 64),
    Settings::plain(4, 1),
    Settings::ring(12, 50),
    Settings::masked(9, 32, 21),
    Settings::ring(16, 1000).with_salt(2_027),
];

/// A list with a history: tags held until one is refused, and every third released again.
fn list_of(settings: Settings) -> HoldList {
    let mut list = HoldList::new(settings).unwrap();
    let held = (0..).take_while(|&i| list.hold(tag(i)).is_ok()).count();
    for i in (0..held).step_by(3) {
        assert_eq!(list.release(tag(i)), Ok(true));
    }
    list
}

/// All that can be asked of a list without changing it.
fn answers(list: &LookupList) -> impl PartialEq + std::fmt::Debug {
    let copies: Vec<_> = (0..5_000).map(|i| list.copies(tag(i))).collect();
    let held: Vec<_> = (0..5_000).map(|i| list.is_held(tag(i))).collect();
    let views: Vec<_> = (0..=list.settings().buckets)
        .map(|b| list.view(b).map(<[u16]>::to_vec))
        .collect();
    (
        (copies, held, list.copies(""), list.is_held([0; 65])),
        (views, list.cells().to_vec()),
        (list.file_length(), list.save(), list.pack()),
        (
            list.settings(),
            list.len(),
            list.is_empty(),
            list.capacity(),
        ),
    )
}

// ── lists without scratch ──

#[test]
fn a_lookup_list_answers_what_the_list_did() {
    for s in EVERY_RULE {
        for list in [HoldList::new(s).unwrap(), list_of(s)] {
            let before = answers(&list);
            let read = LookupList::load(&list.save()).unwrap();
            assert_eq!(answers(&read), before, "{s:?}");
            assert_eq!(answers(&LookupList::clone(&list)), before, "{s:?}");
            let lookup = LookupList::from(list);
            assert_eq!(answers(&lookup), before, "{s:?}");
            assert_eq!(answers(&lookup.clone()), before, "{s:?}");
            assert_eq!(answers(&HoldList::from(lookup)), before, "{s:?}");
        }
        // some are held, and some are not
        let list = list_of(s);
        let held = (0..5_000).filter(|&i| list.is_held(tag(i)).unwrap());
        assert!((1..5_000).contains(&held.count()), "{s:?}");
    }
}

#[test]
fn a_list_goes_on_after_it_was_a_lookup_list() {
    for s in EVERY_RULE {
        let mut stayed = list_of(s);
        let mut left = HoldList::from(LookupList::from(stayed.clone()));
        assert_eq!(left.stats().longest, 0);
        let mut longest = 0;
        for i in 5_000..5_000 + 6 * s.buckets as usize {
            assert_eq!(left.forecast(tag(i)), stayed.forecast(tag(i)), "{s:?}");
            let moves = stayed.hold(tag(i));
            assert_eq!(left.hold(tag(i)), moves, "{s:?}");
            longest = longest.max(moves.unwrap_or(0));
            if moves.is_err() {
                // which makes room again, if it was one of the tags that are held
                assert_eq!(left.release(tag(i / 7)), stayed.release(tag(i / 7)));
            }
            if i % 5 == 0 {
                left = HoldList::from(LookupList::from(left));
                assert_eq!(left.stats().longest, 0);
                longest = 0;
            }
            assert_eq!(left.len(), stayed.len());
            assert_eq!(left.stats().longest, longest);
        }
        assert_eq!(left, stayed, "{s:?}");
        left.clear();
        assert_eq!(left, HoldList::new(s).unwrap());
    }
}

#[test]
fn lists_of_both_kinds_are_equal_by_settings_and_cells() {
    for s in EVERY_RULE {
        let list = list_of(s);
        let lookup = LookupList::clone(&list);
        assert_eq!(list, lookup);
        assert_eq!(lookup, list);
        assert_eq!(lookup, lookup.clone());
        // other cells; other settings, and the same cells
        let empty = HoldList::new(s).unwrap();
        let salted = HoldList::new(s.with_salt(s.salt + 1)).unwrap();
        assert_eq!(empty.cells(), salted.cells());
        for (one, other) in [(&list, &empty), (&empty, &salted)] {
            let [lookup, other_lookup] = [one, other].map(|list| LookupList::clone(list));
            assert_ne!(one, other);
            assert_ne!(*one, other_lookup);
            assert_ne!(lookup, *other);
            assert_ne!(lookup, other_lookup);
        }
    }
}

#[test]
fn both_kinds_of_list_are_read_from_the_same_bytes() {
    let list = list_of(Settings::masked(9, 32, 21));
    let s = list.settings();
    let (file, packed) = (list.save(), list.pack());
    let mut read = 0;
    // every byte changed in every bit, and every length
    for (i, bit) in (0..file.len()).flat_map(|i| (0..8).map(move |bit| (i, bit))) {
        let mut bytes = file.clone();
        bytes[i] ^= 1 << bit;
        let lookup = LookupList::load(&bytes);
        assert_eq!(lookup, HoldList::load(&bytes).map(LookupList::from));
        read += usize::from(lookup.is_ok());
    }
    assert!(read > 0 && read < 8 * file.len());
    for end in 0..file.len() {
        assert_eq!(LookupList::load(&file[..end]), Err(Refusal::Short));
    }
    for (i, bit) in (0..packed.len()).flat_map(|i| (0..8).map(move |bit| (i, bit))) {
        let mut bytes = packed.clone();
        bytes[i] ^= 1 << bit;
        let lookup = LookupList::unpack(s, &bytes);
        assert_eq!(lookup, HoldList::unpack(s, &bytes).map(LookupList::from));
    }
    for end in 0..packed.len() {
        assert_eq!(LookupList::unpack(s, &packed[..end]), Err(Refusal::Short));
    }
    let sorted = LookupList::unpack(s, &packed).unwrap();
    assert_eq!((sorted.len(), sorted.pack()), (list.len(), packed));
    for bad in [Settings::plain(3, 1), Settings::plain(12, 6)] {
        assert_eq!(LookupList::unpack(bad, &[]), Err(bad.check().unwrap_err()));
    }
}

#[test]
fn a_lookup_list_has_its_cells_and_no_scratch() {
    let list = list_of(Settings::ring(12, 50));
    assert_eq!(size_of_val(list.cells()), 8 * 50);
    // what a list has beside it is the scratch and the longest relocation
    assert!(size_of::<LookupList>() + size_of::<Vec<u32>>() < size_of::<HoldList>());
}

#[test]
fn a_lookup_list_is_read_by_many_threads() {
    let mut list = list_of(Settings::ring(16, 1000));
    let reader = LookupList::clone(&list);
    let before = answers(&reader);
    std::thread::scope(|scope| {
        for _ in 0..2 {
            scope.spawn(|| assert_eq!(answers(&reader), before));
        }
        // while the list that it was taken from goes on
        list.clear();
    });
    assert!(list.is_empty() && !reader.is_empty());
}

#[test]
fn a_list_says_what_it_is_in_short() {
    let mut list = HoldList::new(Settings::plain(4, 1)).unwrap();
    list.hold("ewe").unwrap();
    let settings = "Settings { rule: 0, width: 4, buckets: 1, mask: 0, salt: 0 }";
    let says = format!("HoldList {{ settings: {settings}, entries: 1, .. }}");
    assert_eq!(format!("{list:?}"), says);
    assert_eq!(format!("{:?}", list.buckets()), "Buckets { left: 1, .. }");
    let says = format!("LookupList {{ settings: {settings}, entries: 1, .. }}");
    assert_eq!(format!("{:?}", LookupList::from(list)), says);
}

// ── buckets ──

#[test]
fn buckets_are_the_views_in_order() {
    for s in EVERY_RULE {
        let list = list_of(s);
        let views: Vec<&[u16]> = (0..s.buckets).map(|b| list.view(b).unwrap()).collect();
        let count = views.len();
        assert_eq!(list.buckets().collect::<Vec<_>>(), views);
        let mut back: Vec<_> = list.buckets().rev().collect();
        back.reverse();
        assert_eq!(back, views);
        assert_eq!(
            list.buckets().flatten().copied().collect::<Vec<_>>(),
            list.cells()
        );
        assert_eq!(list.buckets().len(), count);
        assert_eq!(list.buckets().count(), count);
        assert_eq!(list.buckets().last().map(|b| &b[..]), views.last().copied());
        for b in 0..count + 2 {
            let view = views.get(b).copied();
            assert_eq!(list.buckets().nth(b).map(|b| &b[..]), view);
            let view = views.iter().rev().nth(b).copied();
            assert_eq!(list.buckets().nth_back(b).map(|b| &b[..]), view);
        }
    }
}

#[test]
fn buckets_are_taken_from_both_ends() {
    for s in EVERY_RULE {
        let list = list_of(s);
        let mut buckets = list.buckets();
        let (mut from, mut to) = (0, s.buckets);
        // single ones and some passed over, at the one end and the other
        for step in 0.. {
            let left = (to - from) as usize;
            assert_eq!(buckets.size_hint(), (left, Some(left)));
            assert_eq!(buckets.len(), left);
            // a copy goes on by itself
            assert_eq!(buckets.clone().count(), left);
            let by = step % 3;
            let expected = (by < to - from).then(|| match step % 2 {
                0 => list.view(from + by).unwrap(),
                _ => list.view(to - 1 - by).unwrap(),
            });
            let found = match (step % 2, by) {
                (0, 0) => buckets.next(),
                (0, _) => buckets.nth(by as usize),
                (_, 0) => buckets.next_back(),
                _ => buckets.nth_back(by as usize),
            };
            assert_eq!(found.map(|b| &b[..]), expected, "{s:?}, step {step}");
            match step % 2 {
                0 => from = to.min(from + by + 1),
                _ => to = from.max(to.saturating_sub(by + 1)),
            }
            if from == to {
                break;
            }
        }
        // and it stays at its end
        for _ in 0..3 {
            assert_eq!((buckets.next(), buckets.next_back()), (None, None));
            assert_eq!((buckets.nth(1), buckets.nth_back(1)), (None, None));
            assert_eq!(buckets.len(), 0);
        }
    }
}

#[test]
fn a_list_is_gone_through_itself() {
    fn fused<'a>(buckets: impl std::iter::FusedIterator<Item = &'a [u16; 4]>) -> usize {
        buckets.count()
    }
    let list = list_of(Settings::ring(12, 50));
    let mut filled = 0;
    for bucket in &list {
        filled += bucket.iter().filter(|&&cell| cell != 0).count();
    }
    assert_eq!(filled, list.len());
    let lookup = LookupList::from(list.clone());
    let mut at: Buckets<'_> = (&lookup).into_iter();
    for bucket in &list {
        assert_eq!(at.next(), Some(bucket));
    }
    assert_eq!(at.next(), None);
    assert_eq!(fused(lookup.buckets()), 50);
}

#[test]
fn a_bucket_outlives_the_iterator() {
    let list = list_of(Settings::plain(12, 64));
    let full: Vec<&[u16; 4]> = {
        let buckets = list.buckets();
        buckets.filter(|bucket| !bucket.contains(&0)).collect()
    };
    assert!(!full.is_empty() && full.len() < 64);
}
