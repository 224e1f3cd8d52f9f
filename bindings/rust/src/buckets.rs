use crate::{HoldList, LookupList};
use std::{fmt, iter::FusedIterator, slice::ChunksExact};

/// The buckets of a list in order, each as its four cells: what [`LookupList::buckets`] gives.
#[derive(Clone)]
pub struct Buckets<'a>(ChunksExact<'a, u16>);

impl<'a> Buckets<'a> {
    /// The buckets of a table, which has four cells for each.
    pub(crate) fn of(table: &'a [u16]) -> Buckets<'a> {
        Buckets(table.chunks_exact(4))
    }
}

fn four(bucket: &[u16]) -> &[u16; 4] {
    bucket.try_into().expect("a bucket has four cells")
}

impl<'a> Iterator for Buckets<'a> {
    type Item = &'a [u16; 4];

    fn next(&mut self) -> Option<&'a [u16; 4]> {
        self.0.next().map(four)
    }

    fn size_hint(&self) -> (usize, Option<usize>) {
        self.0.size_hint()
    }

    fn count(self) -> usize {
        self.0.count()
    }

    fn nth(&mut self, n: usize) -> Option<&'a [u16; 4]> {
        self.0.nth(n).map(four)
    }

    fn last(self) -> Option<&'a [u16; 4]> {
        self.0.last().map(four)
    }
}

impl<'a> DoubleEndedIterator for Buckets<'a> {
    fn next_back(&mut self) -> Option<&'a [u16; 4]> {
        self.0.next_back().map(four)
    }

    fn nth_back(&mut self, n: usize) -> Option<&'a [u16; 4]> {
        self.0.nth_back(n).map(four)
    }
}

impl ExactSizeIterator for Buckets<'_> {}

impl FusedIterator for Buckets<'_> {}

impl fmt::Debug for Buckets<'_> {
    fn fmt(&self, f: &mut fmt::Formatter<'_>) -> fmt::Result {
        f.debug_struct("Buckets")
            .field("left", &self.len())
            .finish_non_exhaustive()
    }
}

impl<'a> IntoIterator for &'a LookupList {
    type Item = &'a [u16; 4];
    type IntoIter = Buckets<'a>;

    /// As [`LookupList::buckets`].
    fn into_iter(self) -> Buckets<'a> {
        self.buckets()
    }
}

impl<'a> IntoIterator for &'a HoldList {
    type Item = &'a [u16; 4];
    type IntoIter = Buckets<'a>;

    /// As [`LookupList::buckets`].
    fn into_iter(self) -> Buckets<'a> {
        self.buckets()
    }
}
