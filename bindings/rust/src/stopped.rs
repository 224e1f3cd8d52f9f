use crate::Refusal;
use std::{error::Error, fmt};

/// Where [`HoldList::hold_each`] stopped, and why. The tags before that place are held, and neither
/// the one at it nor any after it is.
///
/// ```
/// use holdlist::{Refusal, Stopped};
///
/// let stopped = Stopped { place: 2, refusal: Refusal::Tag };
/// assert_eq!(
///     stopped.to_string(),
///     "the tag at place 2, counted from 0, was refused with 7: the tag has no byte or more than 64; \
///      those before it are held",
/// );
/// ```
///
/// [`HoldList::hold_each`]: crate::HoldList::hold_each
#[derive(Clone, Copy, Debug, PartialEq, Eq, Hash)]
pub struct Stopped {
    /// The place of the tag that was refused, counted from 0: as many tags came before it, and these
    /// are held.
    pub place: usize,
    /// Why it was refused.
    pub refusal: Refusal,
}

impl fmt::Display for Stopped {
    fn fmt(&self, f: &mut fmt::Formatter<'_>) -> fmt::Result {
        write!(
            f,
            "the tag at place {}, counted from 0, was {}; those before it are held",
            self.place, self.refusal
        )
    }
}

// what was refused is told with the rest, so that it is not named as a source and told twice
impl Error for Stopped {}
