use crate::{raw, Buckets, HoldList, Refusal, Settings};
use std::fmt;

/// A list that is only looked up: settings and cells, without the scratch that a hold needs.
///
/// It takes 8 bytes for each bucket where a [`HoldList`] takes 16. A reader that gets its list as a
/// file, and never holds or releases, needs no more. Every call that only reads is here, and a
/// [`HoldList`] has them from here.
///
/// Either kind of list is made from the other, with the same settings and the same cells. Two lists
/// are equal if they have those, of whichever kind they are.
///
/// ```
/// use holdlist::{HoldList, LookupList};
///
/// let mut list = HoldList::default();
/// list.hold("gate 4, ewe 17")?;
///
/// let reader = LookupList::load(&list.save())?;
/// assert!(reader.is_held("gate 4, ewe 17")?);
/// assert!(!reader.is_held("gate 4, ewe 18")?);
/// assert_eq!(reader, list);
///
/// // a copy for readers, while the list goes on
/// let copy = LookupList::clone(&list);
/// list.release("gate 4, ewe 17")?;
/// assert!(copy.is_held("gate 4, ewe 17")?);
///
/// // the list itself, which gives its scratch back, and makes it anew
/// let quiet = LookupList::from(list);
/// let mut list = HoldList::from(quiet);
/// list.hold("gate 4, ewe 18")?;
/// # Ok::<(), holdlist::Refusal>(())
/// ```
#[derive(Clone, PartialEq, Eq)]
pub struct LookupList {
    pub(crate) settings: Settings,
    /// How many cells of the table are not 0.
    pub(crate) entries: usize,
    pub(crate) table: Vec<u16>,
}

impl LookupList {
    /// The list of a hold file, as [`HoldList::load`] reads it.
    ///
    /// ```
    /// use holdlist::{LookupList, Refusal, Settings};
    ///
    /// let list = LookupList::load(&[0x26, 4, 0, 0, 0x0a, 9, 0, 3, 0])?;
    /// assert_eq!(list.settings(), Settings::plain(4, 1));
    /// assert_eq!((list.cells(), list.len()), (&[0, 9, 0, 3][..], 2));
    /// assert_eq!(LookupList::load(&[0x26, 4, 0, 0, 0x0a, 9, 0, 3]), Err(Refusal::Short));
    /// # Ok::<(), Refusal>(())
    /// ```
    ///
    /// # Errors
    /// As [`HoldList::load`].
    pub fn load(bytes: &[u8]) -> Result<LookupList, Refusal> {
        let mut table = vec![0; Settings::of_file(bytes)?.cells()];
        let settings = raw::file_read(bytes, &mut table)?;
        let entries = table.iter().filter(|&&cell| cell != 0).count();
        Ok(LookupList {
            settings,
            entries,
            table,
        })
    }

    /// The list of a packed form, as [`HoldList::unpack`] reads it.
    ///
    /// ```
    /// use holdlist::{LookupList, Settings};
    ///
    /// let list = LookupList::unpack(Settings::plain(4, 1), &[0x33, 0x00])?;
    /// assert_eq!(list.cells(), [0, 0, 3, 9]);
    /// # Ok::<(), holdlist::Refusal>(())
    /// ```
    ///
    /// # Errors
    /// As [`HoldList::unpack`].
    pub fn unpack(settings: Settings, bytes: &[u8]) -> Result<LookupList, Refusal> {
        settings.check()?;
        let mut table = vec![0; settings.cells()];
        let entries = raw::packed_read(&settings, bytes, &mut table)?;
        Ok(LookupList {
            settings,
            entries,
            table,
        })
    }

    /// How many entries a tag has: one for each time that it was held and not released, and those of
    /// any other tag with the same fingerprint and the same candidates.
    ///
    /// ```
    /// use holdlist::HoldList;
    ///
    /// let mut list = HoldList::default();
    /// list.hold("ewe")?;
    /// list.hold("ewe")?;
    /// assert_eq!(list.copies("ewe"), Ok(2));
    /// // one release does not clear it
    /// list.release("ewe")?;
    /// assert_eq!((list.copies("ewe"), list.is_held("ewe")), (Ok(1), Ok(true)));
    /// # Ok::<(), holdlist::Refusal>(())
    /// ```
    ///
    /// # Errors
    /// [`Refusal::Tag`].
    pub fn copies(&self, tag: impl AsRef<[u8]>) -> Result<u32, Refusal> {
        raw::lookup(&self.settings, &self.table, tag.as_ref())
    }

    /// Whether a tag is held: it has an entry.
    ///
    /// # Errors
    /// [`Refusal::Tag`].
    pub fn is_held(&self, tag: impl AsRef<[u8]>) -> Result<bool, Refusal> {
        Ok(self.copies(tag)? > 0)
    }

    /// The four cells of a bucket. 0 is an empty cell, any other value a fingerprint.
    ///
    /// ```
    /// use holdlist::{HoldList, Refusal};
    ///
    /// let mut list = HoldList::default();
    /// list.hold("ewe")?;
    /// let home = list.settings().home("ewe")?;
    /// assert_eq!(list.view(home)?, [list.settings().fingerprint("ewe")?, 0, 0, 0]);
    /// assert_eq!(list.view(4096), Err(Refusal::Bucket));
    /// # Ok::<(), Refusal>(())
    /// ```
    ///
    /// # Errors
    /// [`Refusal::Bucket`].
    pub fn view(&self, bucket: u32) -> Result<&[u16], Refusal> {
        raw::view_check(&self.settings, &self.table, bucket)?;
        let at = 4 * bucket as usize;
        Ok(&self.table[at..at + 4])
    }

    /// Every bucket in order, each as its four cells: bucket b is item b. 0 is an empty cell, any other
    /// value a fingerprint.
    ///
    /// ```
    /// use holdlist::{HoldList, Settings};
    ///
    /// let mut list = HoldList::new(Settings::ring(12, 10))?;
    /// for _ in 0..6 {
    ///     list.hold("ewe")?;
    /// }
    /// // the home bucket took four of them, and the other candidate two
    /// let full = list.buckets().filter(|bucket| !bucket.contains(&0));
    /// assert_eq!(full.count(), 1);
    ///
    /// // a list can be gone through itself
    /// for (b, bucket) in (0..).zip(&list) {
    ///     assert_eq!(list.view(b)?, bucket);
    /// }
    /// # Ok::<(), holdlist::Refusal>(())
    /// ```
    pub fn buckets(&self) -> Buckets<'_> {
        Buckets::of(&self.table)
    }

    /// Every cell, bucket after bucket.
    pub fn cells(&self) -> &[u16] {
        &self.table
    }

    /// How many bytes [`LookupList::save`] would give now.
    ///
    /// ```
    /// use holdlist::HoldList;
    ///
    /// let mut list = HoldList::default();
    /// assert_eq!(list.file_length(), 4097);
    /// // an entry takes two bytes
    /// list.hold("ewe")?;
    /// assert_eq!((list.file_length(), list.save().len()), (4099, 4099));
    /// # Ok::<(), holdlist::Refusal>(())
    /// ```
    pub fn file_length(&self) -> usize {
        sure(raw::file_length(&self.settings, &self.table))
    }

    /// The list as a hold file, with its settings.
    ///
    /// ```
    /// use holdlist::{HoldList, Settings};
    ///
    /// // the default settings, and a byte for each empty bucket
    /// let file = HoldList::default().save();
    /// assert_eq!(file, [&[0x20][..], &[0; 4096]].concat());
    /// // width and bucket count are not the default
    /// let small = Settings::plain(4, 1);
    /// assert_eq!(HoldList::new(small)?.save(), [0x26, 4, 0, 0, 0]);
    /// // nor is the salt, which takes eight bytes
    /// let salted = HoldList::new(small.with_salt(2027))?;
    /// assert_eq!(salted.save(), [0x36, 4, 0, 0, 0xeb, 0x07, 0, 0, 0, 0, 0, 0, 0]);
    /// # Ok::<(), holdlist::Refusal>(())
    /// ```
    pub fn save(&self) -> Vec<u8> {
        // the map and five fields take at most 15 bytes, a bucket its byte, and an entry two
        let mut out = vec![0; 15 + self.settings.buckets as usize + 2 * self.entries];
        let count = sure(raw::file_write(&self.settings, &self.table, &mut out));
        out.truncate(count);
        out
    }

    /// The list in its packed form, which leaves out the settings, the salt among them, and the order
    /// within a bucket. Nor does it tell of which version its fingerprints are: one that was made
    /// before version 0.5 is of the earlier ones, and nothing refuses it.
    ///
    /// ```
    /// use holdlist::HoldList;
    ///
    /// let list = HoldList::load(&[0x26, 4, 0, 0, 0x0a, 9, 0, 3, 0])?;
    /// assert_eq!(list.pack(), [0x33, 0x00]);
    /// # Ok::<(), holdlist::Refusal>(())
    /// ```
    pub fn pack(&self) -> Vec<u8> {
        let Settings { width, buckets, .. } = self.settings;
        // a bucket takes 4 × (width − 1) bits
        let mut out = vec![0; ((width as usize - 1) * buckets as usize + 1) / 2];
        let count = sure(raw::packed_write(&self.settings, &self.table, &mut out));
        out.truncate(count);
        out
    }

    /// The settings.
    pub fn settings(&self) -> Settings {
        self.settings
    }

    /// How many entries the list has.
    pub fn len(&self) -> usize {
        self.entries
    }

    /// Whether the list has no entry.
    pub fn is_empty(&self) -> bool {
        self.entries == 0
    }

    /// How many entries the list can be expected to have before a hold is refused: the
    /// [`Settings::capacity`] of its settings, with all that is said there.
    pub fn capacity(&self) -> usize {
        self.settings.capacity()
    }
}

impl From<HoldList> for LookupList {
    /// The same list, which gives its scratch back.
    fn from(list: HoldList) -> LookupList {
        list.list
    }
}

impl PartialEq<HoldList> for LookupList {
    fn eq(&self, other: &HoldList) -> bool {
        *self == other.list
    }
}

impl fmt::Debug for LookupList {
    fn fmt(&self, f: &mut fmt::Formatter<'_>) -> fmt::Result {
        f.debug_struct("LookupList")
            .field("settings", &self.settings)
            .field("entries", &self.entries)
            .finish_non_exhaustive()
    }
}

/// The answer of a call that a list cannot be refused: its settings pass, its buffers have their
/// sizes, and only cells of its width come into its table.
pub(crate) fn sure<T>(answer: Result<T, Refusal>) -> T {
    answer.unwrap_or_else(|refusal| unreachable!("{refusal}"))
}
