//! A hold list: which tags are on hold, kept as fingerprints in a cuckoo filter. The code behind it
//! is proved equal to its definition; this crate lends it memory and gives its answers Rust's
//! types.
//!
//! A lookup never says clear of a tag that was held and not released, as long as nothing is released
//! that was not held. It may say held of a tag that was never held, if another one with the same
//! fingerprint and the same candidate buckets is.
//!
//! ```
//! use holdlist::{HoldList, Settings};
//!
//! let mut list = HoldList::new(Settings::ring(12, 1000))?;
//! list.hold("gate 4, ewe 17")?;
//! assert!(list.is_held("gate 4, ewe 17")?);
//!
//! let bytes = list.save();
//! let copy = HoldList::load(&bytes)?;
//! assert_eq!(copy, list);
//!
//! assert!(list.release("gate 4, ewe 17")?);
//! assert!(!list.is_held("gate 4, ewe 17")?);
//! # Ok::<(), holdlist::Refusal>(())
//! ```
//!
//! # Choosing settings
//!
//! [`Settings::ring_for`], [`Settings::plain_for`] and [`Settings::masked_for`] give the smallest list
//! of their rule that can be expected to take a number of entries. The ring has any even number of
//! buckets and so comes closest; the other two have a power of two.
//!
//! ```
//! use holdlist::{HoldList, Settings};
//!
//! let settings = Settings::ring_for(12, 10_000)?;
//! assert!(settings.capacity() >= 10_000);
//! let list = HoldList::new(settings)?;
//! # Ok::<(), holdlist::Refusal>(())
//! ```
//!
//! That is measured with tags that differ throughout, and no promise: a hold may be refused earlier.
//! Tags that count up in their last characters, as those of one herd do, fill less than half of 4,096
//! buckets under the plain rule, and less than a quarter under the ring. Hold and look up such tags
//! written backwards, or take the masked rule with more buckets than these calls give and a width of 14
//! or more: [`Settings::capacity`] says more of it.
//!
//! The width decides how many clear tags read held by chance. In a full list it is about one in 500 at
//! width 12, twice as many under the masked rule, and half as many with each bit more. A wider
//! fingerprint takes no more memory, since every cell has 16 bits, and no more of a hold file; the
//! packed form grows with it.
//!
//! # Lists that are only looked up
//!
//! A hold needs scratch, which takes as much memory as the cells. A reader that gets its list as a file
//! and only looks tags up needs none: [`LookupList`] is a list without.
//!
//! ```
//! use holdlist::{HoldList, LookupList};
//!
//! let mut list = HoldList::default();
//! list.hold("gate 4, ewe 17")?;
//! let reader = LookupList::load(&list.save())?;
//! assert!(reader.is_held("gate 4, ewe 17")?);
//! # Ok::<(), holdlist::Refusal>(())
//! ```
//!
//! # The archive
//!
//! The archive `libholdlist.a` is made by `./build library` at the top of the repository, for
//! x86-64 Linux. The build looks for it in the repository's `target/staticlib`, or in the folder
//! that `HOLDLIST_LIB_DIR` names, such as `lib` below the folder that `./install` was given.
#![warn(missing_docs)]

mod buckets;
mod loads;
mod lookup;
mod raw;
mod refusal;
mod settings;
mod stopped;

pub use buckets::Buckets;
pub use lookup::LookupList;
pub use refusal::Refusal;
pub use settings::Settings;
pub use stopped::Stopped;

use lookup::sure;
use std::{fmt, ops::Deref};

/// A list of held tags, with the memory that it needs.
///
/// The calls that only read are those of [`LookupList`], and are made on a `HoldList` in the same way.
///
/// Two lists are equal if they have the same settings and the same cells.
#[derive(Clone)]
pub struct HoldList {
    list: LookupList,
    scratch: Vec<u32>,
    longest: u32,
}

/// What [`HoldList::stats`] answers.
#[derive(Clone, Copy, Debug, PartialEq)]
pub struct Stats {
    /// The entries of the list: a tag that is held twice has two.
    pub entries: usize,
    /// The number of buckets, each with room for four entries.
    pub buckets: u32,
    /// The part of the cells that is filled, 0 to 1.
    pub load: f64,
    /// The most entries that one hold of this list has moved. A list that was read back, or that was a
    /// [`LookupList`], starts from 0.
    pub longest: u32,
}

impl HoldList {
    /// An empty list.
    ///
    /// ```
    /// use holdlist::{HoldList, Refusal, Settings};
    ///
    /// assert!(HoldList::new(Settings::plain(12, 65536)).is_ok());
    /// assert_eq!(HoldList::new(Settings::plain(12, 65537)), Err(Refusal::Buckets));
    /// ```
    ///
    /// # Errors
    /// As [`Settings::check`].
    pub fn new(settings: Settings) -> Result<HoldList, Refusal> {
        settings.check()?;
        let list = LookupList {
            settings,
            entries: 0,
            table: vec![0; settings.cells()],
        };
        Ok(HoldList::from(list))
    }

    /// Holds a tag, and answers how many other entries moved to make room for it. No fewer moves of
    /// any entries would have made it.
    ///
    /// Tags that spread well fill nine tenths of a large list and more before one is refused.
    /// Short tags that differ in their last bytes alone, such as "tag 1" and "tag 2", may not: the
    /// hash spreads a byte by the bytes after it. Below width 14 many of these share a fingerprint
    /// too, so that more of them read held by chance.
    ///
    /// ```
    /// use holdlist::{HoldList, Refusal, Settings};
    ///
    /// // one bucket has room for four entries
    /// let mut list = HoldList::new(Settings::plain(12, 1))?;
    /// for _ in 0..4 {
    ///     assert_eq!(list.hold(b"ewe"), Ok(0));
    /// }
    /// assert_eq!(list.hold(b"ewe"), Err(Refusal::Full));
    /// assert_eq!(list.hold(b""), Err(Refusal::Tag));
    /// # Ok::<(), Refusal>(())
    /// ```
    ///
    /// # Errors
    /// [`Refusal::Tag`], [`Refusal::Full`]. The list is then as it was.
    pub fn hold(&mut self, tag: impl AsRef<[u8]>) -> Result<u32, Refusal> {
        let list = &mut self.list;
        let moves = raw::hold(
            &list.settings,
            &mut list.table,
            &mut self.scratch,
            tag.as_ref(),
        )?;
        list.entries += 1;
        self.longest = self.longest.max(moves);
        Ok(moves)
    }

    /// Holds each tag in turn, and answers how many these were.
    ///
    /// It stops at the first tag that is refused, and takes no further one from the sequence. The tags
    /// before it stay held: [`Stopped`] tells its place, so that the caller knows which are.
    ///
    /// ```
    /// use holdlist::{HoldList, Refusal, Settings, Stopped};
    ///
    /// let mut list = HoldList::new(Settings::plain(12, 1))?;
    /// assert_eq!(list.hold_each(["ewe 17", "ewe 18"]), Ok(2));
    ///
    /// // an empty tag is refused: "ewe 19" is held, and "ewe 20" is not
    /// let stopped = list.hold_each(["ewe 19", "", "ewe 20"]).unwrap_err();
    /// assert_eq!(stopped, Stopped { place: 1, refusal: Refusal::Tag });
    /// assert_eq!(list.len(), 3);
    ///
    /// // whoever keeps the sequence can go on after it, and has to know of each that was refused
    /// let mut tags = ["", "ewe 20", "ewe 21"].iter();
    /// assert_eq!(list.hold_each(&mut tags).unwrap_err().refusal, Refusal::Tag);
    /// // one bucket has room for four entries
    /// let stopped = list.hold_each(&mut tags).unwrap_err();
    /// assert_eq!(stopped, Stopped { place: 1, refusal: Refusal::Full });
    /// # Ok::<(), Refusal>(())
    /// ```
    ///
    /// # Errors
    /// [`Stopped`] with [`Refusal::Tag`] or [`Refusal::Full`], and the place of the tag that was refused
    /// with it.
    pub fn hold_each<I>(&mut self, tags: I) -> Result<usize, Stopped>
    where
        I: IntoIterator,
        I::Item: AsRef<[u8]>,
    {
        let mut place = 0;
        for tag in tags {
            self.hold(tag)
                .map_err(|refusal| Stopped { place, refusal })?;
            place += 1;
        }
        Ok(place)
    }

    /// What [`HoldList::hold`] would answer now: how many other entries it would move, or its refusal.
    /// If nothing comes between the two, the hold answers what was forecast.
    ///
    /// Cells, entries and longest relocation stay as they are. `&mut` is for the list's scratch, where
    /// the search takes its notes.
    ///
    /// ```
    /// use holdlist::{HoldList, Refusal, Settings};
    ///
    /// let mut list = HoldList::new(Settings::ring(12, 10))?;
    /// for i in 0.. {
    ///     let ewe = format!("ewe {i}");
    ///     let forecast = list.forecast(&ewe);
    ///     assert_eq!(list.len(), i); // it was not held by this
    ///     assert_eq!(list.hold(&ewe), forecast);
    ///     if forecast == Err(Refusal::Full) {
    ///         break;
    ///     }
    /// }
    /// // some of these holds moved entries
    /// assert!(list.stats().longest > 0);
    /// # Ok::<(), Refusal>(())
    /// ```
    ///
    /// # Errors
    /// [`Refusal::Tag`], [`Refusal::Full`].
    pub fn forecast(&mut self, tag: impl AsRef<[u8]>) -> Result<u32, Refusal> {
        let list = &self.list;
        raw::forecast(&list.settings, &list.table, &mut self.scratch, tag.as_ref())
    }

    /// Releases a tag: one entry of it, and `false` if there is none.
    ///
    /// Release only what was held: of a tag that was not, the entry may be another's, with the same
    /// fingerprint and the same candidates.
    ///
    /// # Errors
    /// [`Refusal::Tag`].
    pub fn release(&mut self, tag: impl AsRef<[u8]>) -> Result<bool, Refusal> {
        let list = &mut self.list;
        let released = raw::release(&list.settings, &mut list.table, tag.as_ref())?;
        list.entries -= usize::from(released);
        Ok(released)
    }

    /// Makes the list empty.
    ///
    /// ```
    /// use holdlist::HoldList;
    ///
    /// let mut list = HoldList::default();
    /// list.hold("ewe")?;
    /// list.clear();
    /// assert!(list.is_empty() && !list.is_held("ewe")?);
    /// # Ok::<(), holdlist::Refusal>(())
    /// ```
    pub fn clear(&mut self) {
        let list = &mut self.list;
        sure(raw::clear(&list.settings, &mut list.table));
        list.entries = 0;
        self.longest = 0;
    }

    /// The list of a hold file.
    ///
    /// ```
    /// use holdlist::{HoldList, Refusal, Settings};
    ///
    /// let list = HoldList::load(&[0x26, 4, 0, 0, 0x0a, 9, 0, 3, 0])?;
    /// assert_eq!(list.settings(), Settings::plain(4, 1));
    /// assert_eq!(list.cells(), [0, 9, 0, 3]);
    /// assert_eq!(list.len(), 2);
    /// assert_eq!(HoldList::load(&[0x26, 4, 0, 0, 0x0a, 9, 0, 3]), Err(Refusal::Short));
    /// // a file of an earlier version, whose tags had other fingerprints
    /// let earlier = [0x06, 4, 0, 0, 0x0a, 9, 0, 3, 0];
    /// assert_eq!(HoldList::load(&earlier), Err(Refusal::OldFingerprints));
    /// # Ok::<(), Refusal>(())
    /// ```
    ///
    /// # Errors
    /// [`Refusal::Short`], [`Refusal::Map`], [`Refusal::OldFingerprints`], those of
    /// [`Settings::check`] for the file's settings, [`Refusal::BucketByte`],
    /// [`Refusal::Fingerprint`], [`Refusal::LeftOver`].
    pub fn load(bytes: &[u8]) -> Result<HoldList, Refusal> {
        LookupList::load(bytes).map(HoldList::from)
    }

    /// A hold file of rule 2 whose mask is 0 or the number of buckets less 1, made one of rule 0: the same
    /// list, with the same width, number of buckets, salt and cells. Since version 0.6 nothing else takes
    /// such a file. On the converted list every tag is looked up, held and released as it was.
    ///
    /// ```
    /// use holdlist::{HoldList, Refusal, Settings};
    ///
    /// // rule 2, width 4, one bucket, mask 0
    /// let earlier = [0x2f, 2, 4, 0, 0, 0, 0, 0x0a, 9, 0, 3, 0];
    /// assert_eq!(HoldList::load(&earlier), Err(Refusal::Mask));
    /// let file = HoldList::convert(&earlier)?;
    /// assert_eq!(file, [0x26, 4, 0, 0, 0x0a, 9, 0, 3, 0]);
    /// assert_eq!(HoldList::load(&file)?.settings(), Settings::plain(4, 1));
    /// // once is enough
    /// assert_eq!(HoldList::convert(&file), Err(Refusal::NoConversion));
    /// # Ok::<(), Refusal>(())
    /// ```
    ///
    /// # Errors
    /// As [`HoldList::load`], but that those masks pass; then [`Refusal::NoConversion`].
    pub fn convert(bytes: &[u8]) -> Result<Vec<u8>, Refusal> {
        // the rule and the mask are left out
        let mut out = vec![0; bytes.len()];
        let count = raw::file_convert(bytes, &mut out)?;
        out.truncate(count);
        Ok(out)
    }

    /// The list of a packed form, with the entries of each bucket ascending.
    ///
    /// ```
    /// use holdlist::{HoldList, Refusal, Settings};
    ///
    /// let list = HoldList::unpack(Settings::plain(4, 1), &[0x33, 0x00])?;
    /// assert_eq!(list.cells(), [0, 0, 3, 9]);
    /// assert_eq!(HoldList::unpack(Settings::plain(4, 1), &[0x33, 0x10]), Err(Refusal::Filling));
    /// # Ok::<(), Refusal>(())
    /// ```
    ///
    /// # Errors
    /// As [`Settings::check`], then [`Refusal::Short`], [`Refusal::LeftOver`], [`Refusal::Row`],
    /// [`Refusal::Order`], [`Refusal::Filling`].
    pub fn unpack(settings: Settings, bytes: &[u8]) -> Result<HoldList, Refusal> {
        LookupList::unpack(settings, bytes).map(HoldList::from)
    }

    /// Entries, buckets, load and the longest relocation.
    ///
    /// ```
    /// use holdlist::{HoldList, Settings};
    ///
    /// let mut list = HoldList::new(Settings::plain(12, 1))?;
    /// list.hold("ewe")?;
    /// let stats = list.stats();
    /// assert_eq!((stats.entries, stats.buckets, stats.load, stats.longest), (1, 1, 0.25, 0));
    /// # Ok::<(), holdlist::Refusal>(())
    /// ```
    pub fn stats(&self) -> Stats {
        Stats {
            entries: self.len(),
            buckets: self.settings().buckets,
            load: self.len() as f64 / self.cells().len() as f64,
            longest: self.longest,
        }
    }
}

impl Default for HoldList {
    /// An empty list of the default settings.
    fn default() -> HoldList {
        sure(HoldList::new(Settings::default()))
    }
}

impl Deref for HoldList {
    type Target = LookupList;

    /// The list as one that is only looked up.
    fn deref(&self) -> &LookupList {
        &self.list
    }
}

impl From<LookupList> for HoldList {
    /// The same list, with scratch for its holds. No hold of it has moved an entry yet.
    fn from(list: LookupList) -> HoldList {
        let scratch = vec![0; 2 * list.settings.buckets as usize];
        HoldList {
            list,
            scratch,
            longest: 0,
        }
    }
}

impl<T: AsRef<[u8]>> Extend<T> for HoldList {
    /// Holds each tag in turn. Where one may be refused take [`HoldList::hold_each`], which answers where
    /// this panics.
    ///
    /// ```
    /// use holdlist::HoldList;
    ///
    /// let mut list = HoldList::default();
    /// list.extend(["ewe 17", "ewe 18"]);
    /// assert_eq!(list.len(), 2);
    /// ```
    ///
    /// # Panics
    /// At the first tag that is refused, with what [`Stopped`] says: its place and the refusal. The tags
    /// before it are held. To leave it out and go on would let an animal that is to be held read clear.
    #[track_caller]
    fn extend<I: IntoIterator<Item = T>>(&mut self, tags: I) {
        if let Err(stopped) = self.hold_each(tags) {
            panic!("{stopped}");
        }
    }
}

impl PartialEq for HoldList {
    fn eq(&self, other: &HoldList) -> bool {
        self.list == other.list
    }
}

impl Eq for HoldList {}

impl PartialEq<LookupList> for HoldList {
    fn eq(&self, other: &LookupList) -> bool {
        self.list == *other
    }
}

impl fmt::Debug for HoldList {
    fn fmt(&self, f: &mut fmt::Formatter<'_>) -> fmt::Result {
        f.debug_struct("HoldList")
            .field("settings", &self.settings)
            .field("entries", &self.entries)
            .finish_non_exhaustive()
    }
}
