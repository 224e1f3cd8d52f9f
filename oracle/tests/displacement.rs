//! Random displacement: it files entries where the table finds them, never takes more than the table
//! does, and gives up with one entry lost.

use oracle::displacement::{hold, lookup, MOST_KICKS};
use oracle::index::{Settings, MASKED, PLAIN, RING};
use oracle::model::Class;
use oracle::requests::Mix;
use oracle::table;

const LISTS: [Settings; 6] = [
    Settings::new(PLAIN, 12, 64, 0),
    Settings::new(PLAIN, 4, 2, 0),
    Settings::new(RING, 12, 50, 0),
    Settings::new(RING, 8, 6, 0),
    Settings::new(MASKED, 12, 64, 7),
    Settings::new(MASKED, 16, 4, 1),
];

fn empty(s: Settings) -> Vec<u16> {
    vec![0; 4 * s.buckets as usize]
}

/// The classes of a table's entries, ascending.
fn classes(s: Settings, cells: &[u16]) -> Vec<Class> {
    let filled = cells.iter().enumerate().filter(|(_, &cell)| cell != 0);
    let mut all: Vec<Class> = filled
        .map(|(i, &cell)| Class::of(s, cell, i as u32 / 4).unwrap())
        .collect();
    all.sort_unstable();
    all
}

fn class(s: Settings, tag: &[u8]) -> Class {
    let (fingerprint, home) = oracle::index::entry(s, tag).unwrap();
    Class::of(s, fingerprint, home).unwrap()
}

/// Of two ascending lists, what is in the first alone and what is in the second alone.
fn apart(a: &[Class], b: &[Class]) -> (Vec<Class>, Vec<Class>) {
    let mut left = a.to_vec();
    let mut right = Vec::new();
    for class in b {
        match left.iter().position(|known| known == class) {
            Some(at) => drop(left.remove(at)),
            None => right.push(class.clone()),
        }
    }
    (left, right)
}

#[test]
fn entries_are_those_of_the_tags_until_it_gives_up() {
    let (mut kicked, mut lost_another) = (0, 0);
    for s in LISTS {
        for seed in 0..200 {
            let (mut tags, mut chance) = (Mix(seed), Mix(!seed));
            let mut cells = empty(s);
            let mut held: Vec<Class> = Vec::new();
            loop {
                let tag = tags.draw().to_le_bytes();
                let answer = hold(s, &mut cells, &mut chance, &tag);
                held.push(class(s, &tag));
                held.sort_unstable();
                let now = classes(s, &cells);
                match answer {
                    Ok(kicks) => {
                        assert!(kicks <= MOST_KICKS);
                        kicked += u32::from(kicks > 0);
                        assert_eq!(now, held, "{s:?}, seed {seed}");
                        assert_eq!(lookup(s, &cells, &tag), Ok(true));
                    }
                    Err(number) => {
                        assert_eq!(number, 9);
                        // As many entries as before, with one of all that there should be missing.
                        assert_eq!(now.len(), held.len() - 1);
                        let (missing, more) = apart(&held, &now);
                        assert_eq!((missing.len(), more.len()), (1, 0));
                        lost_another += u32::from(missing[0] != class(s, &tag));
                        break;
                    }
                }
            }
        }
    }
    // Both were seen often.
    assert!(kicked > 1_000, "{kicked}");
    assert!(lost_another > 600, "{lost_another}");
}

#[test]
fn it_takes_no_tag_that_the_table_refuses() {
    let mut earlier = 0;
    for s in LISTS {
        for seed in 0..200 {
            let mut scratch = vec![0; 2 * s.buckets as usize];
            let (mut mine, mut other) = (empty(s), empty(s));
            let mut chance = Mix(!seed);
            let mut goes_on = true;
            for draw in std::iter::repeat_with({
                let mut tags = Mix(seed);
                move || tags.draw()
            }) {
                let tag = draw.to_le_bytes();
                let room = table::hold(s, &mut mine, &mut scratch, &tag).is_ok();
                goes_on = goes_on && hold(s, &mut other, &mut chance, &tag).is_ok();
                assert!(room || !goes_on, "{s:?}, seed {seed}");
                if !room {
                    break;
                }
                if !goes_on {
                    earlier += 1;
                    break;
                }
            }
        }
    }
    assert!(earlier > 100, "{earlier}");
}

#[test]
fn what_chance_is_fed_decides_and_nothing_else() {
    let s = LISTS[0];
    let run = |seed: u64| {
        let (mut tags, mut chance, mut cells) = (Mix(1), Mix(seed), empty(s));
        let answers: Vec<_> = (0..250)
            .map(|_| hold(s, &mut cells, &mut chance, &tags.draw().to_le_bytes()))
            .collect();
        (answers, cells)
    };
    assert_eq!(run(7), run(7));
    assert_ne!(run(7), run(8));
}

#[test]
fn checks_are_those_of_the_table() {
    let mut chance = Mix(1);
    let s = LISTS[0];
    let mut cells = empty(s);
    let bad = Settings::new(PLAIN, 12, 6, 0);
    assert_eq!(hold(bad, &mut cells, &mut chance, b"a"), Err(3));
    assert_eq!(hold(s, &mut cells[1..], &mut chance, b"a"), Err(5));
    assert_eq!(hold(s, &mut cells, &mut chance, b""), Err(7));
    assert_eq!(lookup(bad, &cells, b"a"), Err(3));
    assert_eq!(lookup(s, &cells[1..], b"a"), Err(5));
    assert_eq!(lookup(s, &cells, b""), Err(7));
    assert_eq!(cells, empty(s));
    assert_eq!(lookup(s, &cells, b"a"), Ok(false));
}

#[test]
fn a_lookup_says_what_the_count_says() {
    for s in LISTS {
        let mut mix = Mix(3);
        let mut cells = empty(s);
        for cell in &mut cells {
            *cell = mix.below(1 << s.width) as u16;
        }
        let mut held = 0;
        for _ in 0..2_000 {
            let tag = mix.draw().to_le_bytes();
            let copies = table::lookup(s, &cells, &tag).unwrap();
            assert_eq!(lookup(s, &cells, &tag), Ok(copies > 0), "{s:?}");
            held += u32::from(copies > 0);
        }
        assert!(held < 2_000);
        assert!(held > 0 || s.width > 10, "{s:?}");
    }
}
