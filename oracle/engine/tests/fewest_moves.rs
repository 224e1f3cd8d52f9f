//! What an accepted hold answers is the fewest moves, of whichever entries, that make room, and a hold is
//! refused with 9 only where no moves do. Both are held to a search over whole tables, which tries every
//! move of every entry: it knows nothing of paths, nor of the order in which a hold looks.

use engine::boundary::Engine;
use engine::make::{long, one_of, scratch, settings, tag};
use engine::seed;
use oracle::index::{self, Settings};
use oracle::requests::Mix;
use std::collections::HashSet;

const NAME: &str = "fewest moves";
const ENGINE: Engine = Engine { null: false };

/// A search that comes to more tables is cut short.
const TABLES: usize = 20_000;

/// What a search comes to.
enum Found {
    /// The fewest moves that make room, and the tables that so many lead to and fewer do not.
    Room(usize, HashSet<Vec<u16>>),
    /// No list of moves makes room.
    Nothing,
    /// No list of so many does, and with one more there are too many tables.
    Cut(usize),
}

/// A table up to the order of the cells of a bucket, on which no move depends: in each they ascend, so
/// that an empty one is first.
fn sorted(mut table: Vec<u16>) -> Vec<u16> {
    table.chunks_mut(4).for_each(<[u16]>::sort_unstable);
    table
}

fn has_room(table: &[u16], bucket: u32) -> bool {
    table[4 * bucket as usize] == 0
}

/// The tables that one move leads to: any entry goes to an empty cell of another of its candidates.
fn moved(s: Settings, table: &[u16]) -> Vec<Vec<u16>> {
    let mut all = vec![];
    for (cell, &value) in table.iter().enumerate().filter(|&(_, &value)| value != 0) {
        let bucket = cell as u32 / 4;
        for other in index::candidates(s, value, bucket).unwrap() {
            if other != bucket && has_room(table, other) {
                let mut next = table.to_vec();
                next.swap(cell, 4 * other as usize);
                all.push(sorted(next));
            }
        }
    }
    all
}

/// Every list of moves from the table, the short ones first, until one of the buckets has room.
fn search(s: Settings, table: &[u16], buckets: &[u32]) -> Found {
    let mut level = HashSet::from([sorted(table.to_vec())]);
    let mut known = level.clone();
    for moves in 0.. {
        let room = |table: &Vec<u16>| buckets.iter().any(|&bucket| has_room(table, bucket));
        if level.iter().any(room) {
            return Found::Room(moves, level);
        }
        let mut next = HashSet::new();
        for after in level.iter().flat_map(|table| moved(s, table)) {
            if known.insert(after.clone()) {
                next.insert(after);
            }
            if known.len() > TABLES {
                return Found::Cut(moves);
            }
        }
        if next.is_empty() {
            break;
        }
        level = next;
    }
    Found::Nothing
}

/// Holds the tag, and compares with what the search finds in the table as it was. The answer is the
/// place in the counts.
fn hold(mix: &mut Mix, s: Settings, table: &mut [u16], tag: &[u8]) -> usize {
    let before = table.to_vec();
    let mut words = scratch(mix, s.buckets, table.len() / 2);
    let answer = ENGINE.hold(&s, table, &mut words, tag);
    let seed = seed::seed();
    let at = format!("{NAME}, SEED={seed:x}: {tag:?} with {s:?} in {before:?}, then {table:?}");
    let (fingerprint, home) = index::entry(s, tag).unwrap();
    let buckets = index::candidates(s, fingerprint, home).unwrap();
    match search(s, &before, &buckets) {
        Found::Room(moves, tables) => {
            assert_eq!(answer, moves as i64, "{at}");
            // Without the new entry it is one of those tables.
            let reached = |&bucket: &u32| {
                let from = 4 * bucket as usize;
                let cell = (from..from + 4).find(|&cell| table[cell] == fingerprint)?;
                let mut left = table.to_vec();
                left[cell] = 0;
                tables.get(&sorted(left))
            };
            assert!(buckets.iter().find_map(reached).is_some(), "{at}");
            // An entry that was not moved is in its cell.
            let changed = (0..table.len()).filter(|&cell| table[cell] != before[cell]);
            assert!(changed.count() <= moves + 1, "{at}");
            moves.min(3)
        }
        Found::Nothing => {
            assert_eq!(answer, -9, "{at}");
            assert!(table[..] == before, "{at}");
            4 + usize::from(before.contains(&0))
        }
        Found::Cut(moves) => {
            assert!(answer == -9 || answer > moves as i64, "{answer}, {at}");
            6
        }
    }
}

/// Cells of which few are empty: any values, three values, pairs of one value, which make for long
/// paths, or what holds leave.
fn some_cells(mix: &mut Mix, s: Settings) -> Vec<u16> {
    let count = 4 * s.buckets as usize;
    let mut table = vec![0; count];
    let few = [0; 3].map(|_| mix.draw() as u16);
    match mix.below(4) {
        0 => table.fill_with(|| mix.draw() as u16),
        1 => table.fill_with(|| one_of(mix, &few)),
        2 => table
            .chunks_mut(2)
            .for_each(|two| two.fill(mix.draw() as u16)),
        _ => {
            for _ in 0..2 * count {
                let tag = tag(mix.draw() as u32);
                ENGINE.hold(&s, &mut table, &mut vec![0; count / 2], &tag);
            }
        }
    }
    for _ in 0..=mix.below(4) {
        table[mix.below(count as u64) as usize] = 0;
    }
    table
}

#[test]
fn no_list_of_moves_is_shorter() {
    let mut mix = seed::mix(NAME);
    // For each rule the holds with no move, with one, two and more, refused where no cell was empty and
    // where one was, and those whose search was cut short.
    let mut counts = [[0; 7]; 3];
    for _ in 0..6_000 * long() {
        let s = settings(&mut mix, 5);
        let mut table = some_cells(&mut mix, s);
        for _ in 0..4 {
            let tag = tag(mix.draw() as u32);
            counts[s.rule as usize][hold(&mut mix, s, &mut table, &tag)] += 1;
        }
    }
    seed::tell(NAME, &format!(": {counts:?}"));
    for rule in counts {
        assert!(rule[..6].iter().all(|&count| count > 50), "{counts:?}");
        assert!(rule[6] < 150 * long(), "{counts:?}");
    }
}
