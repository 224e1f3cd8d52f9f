use std::{error::Error, fmt};

/// Why a call was refused. A refused call has changed nothing.
///
/// ```
/// use holdlist::{HoldList, Refusal, Settings};
///
/// let no = HoldList::new(Settings::plain(12, 6)).unwrap_err();
/// assert_eq!(no, Refusal::Buckets);
/// assert_eq!(no.number(), 3);
/// assert!(no.to_string().starts_with("refused with 3: "));
/// ```
#[derive(Clone, Copy, Debug, PartialEq, Eq, PartialOrd, Ord, Hash)]
#[repr(u8)]
pub enum Refusal {
    /// 1: the rule is above 2.
    Rule = 1,
    /// 2: the width is outside 4 to 16.
    Width = 2,
    /// 3: the bucket count is 0 or above 65,536, or does not fit the rule.
    Buckets = 3,
    /// 4: the mask does not fit the rule or the bucket count, or splits no offset.
    Mask = 4,
    /// 5: the table does not have four cells for each bucket.
    Table = 5,
    /// 6: scratch is shorter than two numbers for each bucket.
    Scratch = 6,
    /// 7: the tag has no byte or more than 64.
    Tag = 7,
    /// 8: there is no bucket of this number.
    Bucket = 8,
    /// 9: the list has no room for the tag, however its entries are moved.
    Full = 9,
    /// 11: the bytes end early.
    Short = 11,
    /// 12: the map or a field of a hold file is not as it has to be.
    Map = 12,
    /// 13: the byte of a bucket is above 15.
    BucketByte = 13,
    /// 14: a fingerprint is 0 or does not fit the width.
    Fingerprint = 14,
    /// 15: bytes are left over.
    LeftOver = 15,
    /// 16: the output is too short.
    Output = 16,
    /// 17: a cell does not fit the width.
    Cell = 17,
    /// 18: a row number is 3,876 or more.
    Row = 18,
    /// 19: a bucket is not ascending.
    Order = 19,
    /// 20: a filling bit is set.
    Filling = 20,
    /// 23: the hold file has fingerprints of an earlier kind. The list is to be filled anew from the
    /// register.
    OldFingerprints = 23,
    /// 24: the hold file is sound, and its rule or its mask needs no conversion.
    NoConversion = 24,
}

impl Refusal {
    /// Every refusal, by its number.
    pub const ALL: [Refusal; 21] = [
        Refusal::Rule,
        Refusal::Width,
        Refusal::Buckets,
        Refusal::Mask,
        Refusal::Table,
        Refusal::Scratch,
        Refusal::Tag,
        Refusal::Bucket,
        Refusal::Full,
        Refusal::Short,
        Refusal::Map,
        Refusal::BucketByte,
        Refusal::Fingerprint,
        Refusal::LeftOver,
        Refusal::Output,
        Refusal::Cell,
        Refusal::Row,
        Refusal::Order,
        Refusal::Filling,
        Refusal::OldFingerprints,
        Refusal::NoConversion,
    ];

    /// The number, 1 to 9, 11 to 20, 23 or 24.
    pub const fn number(self) -> u8 {
        self as u8
    }

    /// The refusal of a number.
    ///
    /// ```
    /// use holdlist::Refusal;
    ///
    /// assert_eq!(Refusal::from_number(9), Some(Refusal::Full));
    /// assert_eq!(Refusal::from_number(10), None);
    /// ```
    pub fn from_number(number: u8) -> Option<Refusal> {
        Refusal::ALL.into_iter().find(|r| r.number() == number)
    }

    /// What the number means.
    pub const fn meaning(self) -> &'static str {
        match self {
            Refusal::Rule => "the rule is above 2",
            Refusal::Width => "the width is outside 4 to 16",
            Refusal::Buckets => {
                "the bucket count is 0 or above 65536, no power of two under rule 0 or 2, or odd under rule 1"
            }
            Refusal::Mask => {
                "the mask is not from 1 to the bucket count less 2 under rule 2, or not 0 under rule 0 or 1"
            }
            Refusal::Table => "the table does not have four cells for each bucket",
            Refusal::Scratch => "scratch has fewer than two numbers for each bucket",
            Refusal::Tag => "the tag has no byte or more than 64",
            Refusal::Bucket => "there is no bucket of this number",
            Refusal::Full => "the list has no room for the tag, however its entries are moved",
            Refusal::Short => "the bytes end early",
            Refusal::Map => {
                "the map has a bit above its fields, a field has its default, or the mask does not fit the rule"
            }
            Refusal::BucketByte => "the byte of a bucket is above 15",
            Refusal::Fingerprint => "a fingerprint is 0 or does not fit the width",
            Refusal::LeftOver => "bytes are left over",
            Refusal::Output => "the output is too short",
            Refusal::Cell => "a cell does not fit the width",
            Refusal::Row => "a row number is 3876 or more",
            Refusal::Order => "the entries of a bucket are not ascending",
            Refusal::Filling => "a filling bit is set",
            Refusal::OldFingerprints => {
                "the file has fingerprints of an earlier kind: fill the list anew from the register"
            }
            Refusal::NoConversion => {
                "the file needs no conversion: it is sound and of another rule or mask"
            }
        }
    }
}

impl fmt::Display for Refusal {
    fn fmt(&self, f: &mut fmt::Formatter<'_>) -> fmt::Result {
        write!(f, "refused with {}: {}", self.number(), self.meaning())
    }
}

impl Error for Refusal {}
