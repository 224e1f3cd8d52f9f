//! What lists take of the heap. The allocator counts for each thread by itself.

use holdlist::{HoldList, LookupList, Settings};
use std::{
    alloc::{GlobalAlloc, Layout, System},
    cell::Cell,
};

thread_local! {
    static NOW: Cell<isize> = const { Cell::new(0) };
    static MOST: Cell<isize> = const { Cell::new(0) };
}

struct Counting;

/// Where a thread ends its counts are gone, and nobody asks for them.
fn count(bytes: isize) {
    let _ = NOW.try_with(|now| {
        now.set(now.get() + bytes);
        let _ = MOST.try_with(|most| most.set(most.get().max(now.get())));
    });
}

// SAFETY: it is the system's allocator
unsafe impl GlobalAlloc for Counting {
    unsafe fn alloc(&self, layout: Layout) -> *mut u8 {
        count(layout.size() as isize);
        System.alloc(layout)
    }

    unsafe fn dealloc(&self, at: *mut u8, layout: Layout) {
        count(-(layout.size() as isize));
        System.dealloc(at, layout)
    }
}

#[global_allocator]
static COUNTING: Counting = Counting;

/// What is made, and how many bytes it has of the heap: when it is there, and at most while it is made.
fn measured<T>(make: impl FnOnce() -> T) -> (T, isize, isize) {
    let before = NOW.with(Cell::get);
    MOST.with(|most| most.set(before));
    let made = make();
    let [now, most] = [&NOW, &MOST].map(|count| count.with(Cell::get) - before);
    (made, now, most)
}

#[test]
fn a_lookup_list_takes_half_of_what_a_list_takes() {
    for buckets in [2, 50, 1_000, 65_536] {
        let bytes = 8 * buckets as isize;
        let s = Settings::ring(12, buckets);
        let (mut list, now, most) = measured(|| HoldList::new(s).unwrap());
        assert_eq!((now, most), (2 * bytes, 2 * bytes));
        list.hold("ewe").unwrap();
        let file = list.save();
        let packed = list.pack();

        // nor is there ever more while it is read
        let (_, now, most) = measured(|| LookupList::load(&file).unwrap());
        assert_eq!((now, most), (bytes, bytes));
        let (_, now, most) = measured(|| LookupList::unpack(s, &packed).unwrap());
        assert_eq!((now, most), (bytes, bytes));
        let (_, now, most) = measured(|| LookupList::clone(&list));
        assert_eq!((now, most), (bytes, bytes));
        // no hold, no lookup and no bucket takes any
        let (_, now, most) = measured(|| list.hold("ewe"));
        assert_eq!((now, most), (0, 0));
        let (_, now, most) = measured(|| (list.is_held("ewe"), list.buckets().count()));
        assert_eq!((now, most), (0, 0));

        // scratch is given back, and made anew
        let (lookup, now, most) = measured(|| LookupList::from(list));
        assert_eq!((now, most), (-bytes, 0));
        let (_, now, most) = measured(|| HoldList::from(lookup));
        assert_eq!((now, most), (bytes, bytes));
    }
}
