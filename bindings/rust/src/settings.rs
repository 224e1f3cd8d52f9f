use crate::{loads, raw, Refusal};

/// The settings of a list. Any numbers can be written here; [`Settings::check`] and every call that
/// takes settings say whether they pass.
///
/// ```
/// use holdlist::{Refusal, Settings};
///
/// let default = Settings { rule: 0, width: 12, buckets: 4096, mask: 0, salt: 0 };
/// assert_eq!(Settings::default(), default);
/// assert_eq!(Settings::ring(12, 6).check(), Ok(()));
/// assert_eq!(Settings::plain(12, 6).check(), Err(Refusal::Buckets));
/// assert_eq!(Settings::masked(12, 16, 14).check(), Ok(()));
/// assert_eq!(Settings::masked(12, 16, 15).check(), Err(Refusal::Mask));
/// ```
#[derive(Clone, Copy, Debug, PartialEq, Eq, Hash)]
#[repr(C)]
pub struct Settings {
    /// 0 plain, 1 ring, 2 masked.
    pub rule: u32,
    /// The bits of a fingerprint, 4 to 16.
    pub width: u32,
    /// The number of buckets, 1 to 65,536: a power of two under rules 0 and 2, even under rule 1.
    pub buckets: u32,
    /// 1 to the number of buckets less 2 under rule 2, and 0 under the others.
    pub mask: u32,
    /// Any number: see [`Settings::with_salt`].
    pub salt: u64,
}

impl Default for Settings {
    fn default() -> Settings {
        Settings::plain(12, 4096)
    }
}

impl Settings {
    /// The plain rule: two candidates for each entry, and a power of two buckets.
    pub const fn plain(width: u32, buckets: u32) -> Settings {
        Settings {
            rule: 0,
            width,
            buckets,
            mask: 0,
            salt: 0,
        }
    }

    /// The ring rule: two candidates for each entry, one in each half of an even number of buckets.
    ///
    /// Below width 12 some numbers make a bad ring, of which [`Settings::capacity`] tells.
    pub const fn ring(width: u32, buckets: u32) -> Settings {
        Settings {
            rule: 1,
            width,
            buckets,
            mask: 0,
            salt: 0,
        }
    }

    /// The masked rule: four candidates for each entry, and a power of two buckets, at least four.
    ///
    /// The mask splits the offset of a fingerprint: one candidate lies the bits in the mask apart, one
    /// the bits outside it, one both. A mask of no bit or of every bit would split none, and the four
    /// candidates would be the plain rule's two; it is refused.
    pub const fn masked(width: u32, buckets: u32, mask: u32) -> Settings {
        Settings {
            rule: 2,
            width,
            buckets,
            mask,
            salt: 0,
        }
    }

    /// The smallest settings of the plain rule whose [`Settings::capacity`] is at least so many entries.
    ///
    /// ```
    /// use holdlist::{Refusal, Settings};
    ///
    /// let settings = Settings::plain_for(12, 10_000)?;
    /// assert!(settings.capacity() >= 10_000);
    /// // half as many buckets would not do
    /// assert!(Settings::plain(12, settings.buckets / 2).capacity() < 10_000);
    /// // no list has more than 262,144 cells
    /// assert_eq!(Settings::plain_for(12, 262_145), Err(Refusal::Buckets));
    /// # Ok::<(), Refusal>(())
    /// ```
    ///
    /// # Errors
    /// [`Refusal::Width`]; then [`Refusal::Buckets`] where it would take more than 65,536.
    pub fn plain_for(width: u32, entries: usize) -> Result<Settings, Refusal> {
        let counts = (0..=16).map(|bits| 1 << bits);
        smallest(width, entries, counts.map(|m| Settings::plain(width, m)))
    }

    /// The smallest settings of the ring rule whose [`Settings::capacity`] is at least so many entries.
    /// Of the three rules this one comes closest to the number, since it takes any even number of
    /// buckets.
    ///
    /// ```
    /// use holdlist::Settings;
    ///
    /// let settings = Settings::ring_for(12, 10_000)?;
    /// assert!(settings.capacity() >= 10_000);
    /// // two buckets fewer would not do
    /// assert!(Settings::ring(12, settings.buckets - 2).capacity() < 10_000);
    /// # Ok::<(), holdlist::Refusal>(())
    /// ```
    ///
    /// # Errors
    /// [`Refusal::Width`]; then [`Refusal::Buckets`] where it would take more than 65,536.
    pub fn ring_for(width: u32, entries: usize) -> Result<Settings, Refusal> {
        let counts = (2..=65_536).step_by(2);
        smallest(width, entries, counts.map(|m| Settings::ring(width, m)))
    }

    /// The smallest settings of the masked rule whose [`Settings::capacity`] is at least so many entries.
    /// The mask is the lower half of the bits of a bucket number: 63 where there are 4,096 buckets.
    ///
    /// ```
    /// use holdlist::Settings;
    ///
    /// let settings = Settings::masked_for(14, 10_000)?;
    /// assert!(settings.capacity() >= 10_000);
    /// assert_eq!(settings, Settings::masked(14, 4096, 63));
    /// # Ok::<(), holdlist::Refusal>(())
    /// ```
    ///
    /// # Errors
    /// [`Refusal::Width`]; then [`Refusal::Buckets`] where it would take more than 65,536.
    pub fn masked_for(width: u32, entries: usize) -> Result<Settings, Refusal> {
        let lists = (2..=16).map(|bits| Settings::masked(width, 1 << bits, (1 << (bits / 2)) - 1));
        smallest(width, entries, lists)
    }

    /// The same settings with a salt, which is put by exclusive or to the start of the hash of every
    /// tag. Every number passes; 0 is the default.
    ///
    /// A clear tag that shares fingerprint and candidates with a held one reads held. Under one salt
    /// the same unlucky tags do so all year. Under another others do, so each season's list can have
    /// a salt of its own. Let salts differ in their low eight bits, as 1, 2, 3 do: salts that agree
    /// there move the hashes of all tags of one length by the same number, and many of the unlucky
    /// tags stay unlucky.
    ///
    /// Lists of different salts are different lists: a tag is found with the salt that it was held
    /// with. [`LookupList::save`] writes the salt with the other settings; the packed form of
    /// [`LookupList::pack`] has none of them, so [`HoldList::unpack`] has to be told.
    ///
    /// ```
    /// use holdlist::{HoldList, Settings};
    ///
    /// let last = Settings::ring(12, 1000);
    /// let this = last.with_salt(2027);
    /// assert_ne!(last.fingerprint("gate 4, ewe 17")?, this.fingerprint("gate 4, ewe 17")?);
    ///
    /// let mut list = HoldList::new(this)?;
    /// list.hold("gate 4, ewe 17")?;
    /// let copy = HoldList::load(&list.save())?;
    /// assert_eq!(copy.settings().salt, 2027);
    /// assert!(HoldList::unpack(this, &list.pack())?.is_held("gate 4, ewe 17")?);
    /// // with the salt of another list the tag is not found
    /// assert!(!HoldList::unpack(last, &list.pack())?.is_held("gate 4, ewe 17")?);
    /// # Ok::<(), holdlist::Refusal>(())
    /// ```
    ///
    /// [`LookupList::save`]: crate::LookupList::save
    /// [`LookupList::pack`]: crate::LookupList::pack
    /// [`HoldList::unpack`]: crate::HoldList::unpack
    pub const fn with_salt(self, salt: u64) -> Settings {
        Settings { salt, ..self }
    }

    /// The settings that a hold file names: they pass. It looks at the file's header alone, so that
    /// the file may be bad behind it. Whatever it refuses [`HoldList::load`] refuses too.
    ///
    /// ```
    /// use holdlist::{Refusal, Settings};
    ///
    /// assert_eq!(Settings::of_file(&[0x26, 4, 0, 0]), Ok(Settings::plain(4, 1)));
    /// assert_eq!(Settings::of_file(&[0x26, 4, 0]), Err(Refusal::Short));
    /// // without bit 5 of the first byte it is a file of an earlier version
    /// assert_eq!(Settings::of_file(&[0x06, 4, 0, 0]), Err(Refusal::OldFingerprints));
    /// ```
    ///
    /// # Errors
    /// [`Refusal::Short`], [`Refusal::Map`], [`Refusal::OldFingerprints`], then as
    /// [`Settings::check`].
    ///
    /// [`HoldList::load`]: crate::HoldList::load
    pub fn of_file(bytes: &[u8]) -> Result<Settings, Refusal> {
        raw::file_settings(bytes)
    }

    /// Whether the settings pass.
    ///
    /// # Errors
    /// [`Refusal::Rule`], [`Refusal::Width`], [`Refusal::Buckets`] or [`Refusal::Mask`]: the first
    /// that applies.
    pub fn check(self) -> Result<(), Refusal> {
        raw::settings_check(&self)
    }

    /// The fingerprint of a tag, 1 to 2^width − 1: one more than the remainder of the low 32 bits of
    /// its hash by 2^width − 1.
    ///
    /// # Errors
    /// As [`Settings::check`], then [`Refusal::Tag`].
    pub fn fingerprint(self, tag: impl AsRef<[u8]>) -> Result<u16, Refusal> {
        raw::fingerprint(&self, tag.as_ref())
    }

    /// The home bucket of a tag.
    ///
    /// # Errors
    /// As [`Settings::check`], then [`Refusal::Tag`].
    pub fn home(self, tag: impl AsRef<[u8]>) -> Result<u32, Refusal> {
        raw::home(&self, tag.as_ref())
    }

    /// The offset by which the candidates of a fingerprint lie apart. Any 16-bit value has one, and it
    /// is the same under every salt.
    ///
    /// # Errors
    /// As [`Settings::check`].
    pub fn offset(self, fingerprint: u16) -> Result<u32, Refusal> {
        raw::offset(&self, fingerprint)
    }

    /// The candidate buckets of a fingerprint that stands in a bucket, in order. The first is the
    /// bucket itself, and some may coincide.
    ///
    /// ```
    /// use holdlist::Settings;
    ///
    /// // under the ring rule a candidate's candidate is where it came from
    /// let ring = Settings::ring(12, 10);
    /// let pair = ring.candidates(77, 3)?;
    /// assert_eq!(ring.candidates(77, pair[1])?, [pair[1], 3]);
    /// # Ok::<(), holdlist::Refusal>(())
    /// ```
    ///
    /// # Errors
    /// As [`Settings::check`], then [`Refusal::Bucket`].
    pub fn candidates(self, fingerprint: u16, bucket: u32) -> Result<Vec<u32>, Refusal> {
        let mut out = [0; 4];
        let count = raw::candidates(&self, fingerprint, bucket, &mut out)?;
        Ok(out[..count].to_vec())
    }

    /// How many entries a list of these settings can be expected to have before a hold is refused, and 0
    /// where the settings do not pass.
    ///
    /// The number is measured, and no promise: of many lists, filled with tags that differ throughout,
    /// each took as many. Some other list may not. What no list passes are its cells, four for each
    /// bucket. What fits in every list are four entries, and eight under the ring rule.
    ///
    /// Tags that count up in their last characters, as those of one herd do, fill far less: the half of
    /// their hash that names the home bucket varies little. Of 4,096 buckets they fill less than half
    /// under rule 0, less than a quarter under rule 1, and about nine tenths under rule 2; of fewer
    /// buckets less, under rule 2 too. Hold and look up such tags written backwards, and they do as those
    /// that differ. Else take rule 2 and more buckets than this number asks for, and try it with the tags.
    ///
    /// Nor does the number say how often one tag can be held. Its entries have room in its candidates
    /// alone: two buckets, or four under rule 2, some of which may coincide. And under rule 2 it is that
    /// of the mask which [`Settings::masked_for`] gives: one of a single bit, or of all but one, does a
    /// little less.
    ///
    /// Under the ring rule more buckets are not always more room. Where half their number is a multiple of
    /// 3, 5 or 29 and the width is small, all offsets have the same remainder by it. The ring then is
    /// several rings, and a hold is refused when one of these is full: of 870 buckets, lists of width 8
    /// filled 13 to 44 percent, and of 868 they filled 97 and more. The number is on the safe side there,
    /// and [`Settings::ring_for`] takes a better count. From width 12 on there is little of this.
    ///
    /// ```
    /// use holdlist::Settings;
    ///
    /// let expected = Settings::ring(12, 1000).capacity();
    /// assert!(3000 < expected && expected < 4000);
    /// // with one bucket every cell can be filled
    /// assert_eq!(Settings::plain(12, 1).capacity(), 4);
    /// // these settings do not pass
    /// assert_eq!(Settings::plain(12, 1000).capacity(), 0);
    /// // 435 is 3 × 5 × 29
    /// assert!(Settings::ring(8, 870).capacity() < Settings::ring(8, 868).capacity() / 4);
    /// ```
    pub fn capacity(self) -> usize {
        match self.check() {
            Ok(()) => loads::entries(self.rule, self.width, self.buckets),
            Err(_) => 0,
        }
    }

    /// How many cells the table of a list has.
    pub(crate) fn cells(self) -> usize {
        4 * self.buckets as usize
    }
}

/// The first settings, of those of a width and with ascending bucket counts, that have capacity for the
/// entries.
fn smallest(
    width: u32,
    entries: usize,
    mut ascending: impl Iterator<Item = Settings>,
) -> Result<Settings, Refusal> {
    Settings::plain(width, 1).check()?;
    ascending
        .find(|s| s.cells() >= entries && s.capacity() >= entries)
        .ok_or(Refusal::Buckets)
}
