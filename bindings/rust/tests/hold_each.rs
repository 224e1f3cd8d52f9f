//! Tags that are held one after the other.

use holdlist::{HoldList, Refusal, Settings, Stopped};
use std::panic::{catch_unwind, AssertUnwindSafe};

fn tag(i: usize) -> String {
    format!("{i} at the gate")
}

const EVERY_RULE: [Settings; 4] = [
    Settings::plain(12, 64),
    Settings::ring(12, 50),
    Settings::masked(9, 32, 21),
    Settings::ring(16, 100).with_salt(2_027),
];

/// As many of the tags as the list takes, held one by one, and how many those are.
fn filled(settings: Settings) -> (HoldList, usize) {
    let mut list = HoldList::new(settings).unwrap();
    let held = (0..).take_while(|&i| list.hold(tag(i)).is_ok()).count();
    (list, held)
}

/// What a panic says.
fn panics(f: impl FnOnce()) -> String {
    let said = catch_unwind(AssertUnwindSafe(f)).unwrap_err();
    said.downcast_ref::<String>().unwrap().clone()
}

#[test]
fn it_does_what_single_holds_do() {
    for s in EVERY_RULE {
        let (expected, held) = filled(s);
        let mut list = HoldList::new(s).unwrap();
        assert_eq!(list.hold_each((0..held).map(tag)), Ok(held));
        assert_eq!(list, expected);
        assert_eq!(list.stats(), expected.stats());
        let mut list = HoldList::new(s).unwrap();
        list.extend((0..held).map(tag));
        assert_eq!(list, expected);
        assert_eq!(list.stats(), expected.stats());
    }
}

#[test]
fn it_stops_at_the_first_tag_without_room() {
    for s in EVERY_RULE {
        let (expected, held) = filled(s);
        let mut list = HoldList::new(s).unwrap();
        let stopped = Stopped {
            place: held,
            refusal: Refusal::Full,
        };
        assert_eq!(list.hold_each((0..).map(tag)), Err(stopped));
        assert_eq!(list, expected, "{s:?}");
        assert_eq!(list.stats(), expected.stats());
        // the place is counted from the first of the call, and the list from what it had
        assert_eq!(
            list.hold_each((held..).map(tag)),
            Err(Stopped {
                place: 0,
                ..stopped
            })
        );
        assert_eq!(list, expected);
        assert_eq!(list.release(tag(0)), Ok(true));
        assert_eq!(
            list.hold_each([tag(0), tag(held)]),
            Err(Stopped {
                place: 1,
                ..stopped
            })
        );
        assert_eq!(list.len(), expected.len());
    }
}

#[test]
fn it_stops_at_a_bad_tag() {
    let long = "x".repeat(65);
    for (place, tags) in [
        (0, vec!["", "a", "b"]),
        (1, vec!["a", &long, "b"]),
        (2, vec!["a", "b", ""]),
    ] {
        let mut list = HoldList::default();
        let refusal = Refusal::Tag;
        assert_eq!(list.hold_each(&tags), Err(Stopped { place, refusal }));
        assert_eq!(list.len(), place);
        for (i, tag) in tags.iter().enumerate().filter(|&(i, _)| i != place) {
            assert_eq!(list.is_held(tag), Ok(i < place));
        }
    }
}

#[test]
fn it_takes_no_tag_behind_the_one_that_is_refused() {
    let mut list = HoldList::default();
    let mut tags = ["a", "", "b", "", "c"].into_iter();
    let mut refused = 0;
    while let Err(stopped) = list.hold_each(tags.by_ref()) {
        assert_eq!((stopped.place, stopped.refusal), (1, Refusal::Tag));
        refused += 1;
    }
    assert_eq!((refused, list.len()), (2, 3));
    assert_eq!(tags.next(), None);
}

#[test]
fn no_tag_is_none() {
    let mut list = HoldList::default();
    assert_eq!(list.hold_each([""; 0]), Ok(0));
    list.extend(Vec::<String>::new());
    assert_eq!(list, HoldList::default());
}

#[test]
fn tags_of_every_kind_are_taken() {
    let mut list = HoldList::default();
    let owned = vec![String::from("a"), String::from("b")];
    assert_eq!(list.hold_each(&owned), Ok(2));
    assert_eq!(list.hold_each(owned), Ok(2));
    assert_eq!(list.hold_each([b"a", b"b"]), Ok(2));
    assert_eq!(list.hold_each(vec![vec![b'a'], vec![b'b']]), Ok(2));
    list.extend("a b".split(' '));
    list.extend([&[b'a'][..]]);
    assert_eq!((list.copies("a"), list.copies("b")), (Ok(6), Ok(5)));
}

#[test]
fn extend_panics_at_the_first_refusal_and_keeps_what_went_before() {
    for s in EVERY_RULE {
        let (expected, held) = filled(s);
        let mut list = HoldList::new(s).unwrap();
        let says = panics(|| list.extend((0..).map(tag)));
        assert_eq!(
            says,
            format!(
                "the tag at place {held}, counted from 0, was refused with 9: the list has no room for \
                 the tag, however its entries are moved; those before it are held"
            )
        );
        assert_eq!(list, expected);
        assert_eq!(list.stats(), expected.stats());
    }
    let mut list = HoldList::default();
    let says = panics(|| list.extend(["a", "b", "", "c"]));
    assert_eq!(
        says,
        "the tag at place 2, counted from 0, was refused with 7: the tag has no byte or more than 64; \
         those before it are held"
    );
    let held = ["a", "b", "c"].map(|tag| list.is_held(tag).unwrap());
    assert_eq!((list.len(), held), (2, [true, true, false]));
    // it goes on as a list that was never refused anything
    list.extend(["c"]);
    let mut other = HoldList::default();
    other.extend(["a", "b", "c"]);
    assert_eq!(list, other);
}

#[test]
fn a_sequence_that_panics_leaves_what_it_gave() {
    let mut list = HoldList::default();
    let tags = (0..5).map(|i| if i < 3 { tag(i) } else { panic!("tag {i}") });
    assert_eq!(panics(|| list.extend(tags)), "tag 3");
    let mut other = HoldList::default();
    other.extend((0..3).map(tag));
    assert_eq!(list, other);
    assert_eq!(list.len(), 3);
}

#[test]
fn what_stopped_it_is_an_error() {
    let mut list = HoldList::default();
    let stopped = list.hold_each([""]).unwrap_err();
    let says = stopped.to_string();
    assert!(says.contains(&stopped.refusal.to_string()));
    let error: Box<dyn std::error::Error> = Box::new(stopped);
    assert_eq!(error.to_string(), says);
    // the refusal is in what it says, and is not said again as its source
    assert!(error.source().is_none());
}
