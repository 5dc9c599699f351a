//! Consecutive rows of an image, read where they are.

use crate::Row;
use core::fmt;
use core::iter::FusedIterator;
use core::marker::PhantomData;
use core::slice::ChunksExact;

/// Consecutive rows of a table, read from the image itself.
///
/// The rows of a table by their index, or those of one list. It is a reference: a copy of it is not
/// a copy of the rows.
#[derive(Clone, Copy, PartialEq, Eq)]
pub struct Rows<'a, R> {
    bytes: &'a [u8],
    row: PhantomData<R>,
}

impl<'a, R: Row> Rows<'a, R> {
    /// The rows in these bytes, which are whole rows.
    pub(crate) fn new(bytes: &'a [u8]) -> Rows<'a, R> {
        debug_assert!(bytes.len().is_multiple_of(R::BYTES));
        Rows {
            bytes,
            row: PhantomData,
        }
    }

    /// The first of these rows, as many as the count says. There are no fewer.
    pub(crate) fn first(self, count: usize) -> Rows<'a, R> {
        Rows::new(&self.bytes[..count * R::BYTES])
    }

    /// How many rows there are.
    pub fn len(&self) -> usize {
        self.bytes.len() / R::BYTES
    }

    /// Are there no rows?
    pub fn is_empty(&self) -> bool {
        self.bytes.is_empty()
    }

    /// The row with this index, counted from the first of these rows.
    pub fn get(&self, index: usize) -> Option<R> {
        self.iter().nth(index)
    }

    /// The rows one after another.
    pub fn iter(&self) -> RowsIter<'a, R> {
        RowsIter {
            chunks: self.bytes.chunks_exact(R::BYTES),
            row: PhantomData,
        }
    }
}

impl<R: Row> fmt::Debug for Rows<'_, R> {
    fn fmt(&self, out: &mut fmt::Formatter<'_>) -> fmt::Result {
        out.debug_list().entries(self).finish()
    }
}

impl<'a, R: Row> IntoIterator for Rows<'a, R> {
    type Item = R;
    type IntoIter = RowsIter<'a, R>;

    fn into_iter(self) -> RowsIter<'a, R> {
        self.iter()
    }
}

impl<'a, R: Row> IntoIterator for &Rows<'a, R> {
    type Item = R;
    type IntoIter = RowsIter<'a, R>;

    fn into_iter(self) -> RowsIter<'a, R> {
        self.iter()
    }
}

/// Goes through [`Rows`] from both ends.
#[derive(Clone)]
pub struct RowsIter<'a, R> {
    chunks: ChunksExact<'a, u8>,
    row: PhantomData<R>,
}

// A chunk has the bytes of a row, so there is a row in it.
impl<R: Row> Iterator for RowsIter<'_, R> {
    type Item = R;

    fn next(&mut self) -> Option<R> {
        self.chunks.next().and_then(R::from_bytes)
    }

    fn size_hint(&self) -> (usize, Option<usize>) {
        self.chunks.size_hint()
    }

    fn nth(&mut self, index: usize) -> Option<R> {
        self.chunks.nth(index).and_then(R::from_bytes)
    }
}

impl<R: Row> DoubleEndedIterator for RowsIter<'_, R> {
    fn next_back(&mut self) -> Option<R> {
        self.chunks.next_back().and_then(R::from_bytes)
    }

    fn nth_back(&mut self, index: usize) -> Option<R> {
        self.chunks.nth_back(index).and_then(R::from_bytes)
    }
}

impl<R: Row> ExactSizeIterator for RowsIter<'_, R> {}

impl<R: Row> FusedIterator for RowsIter<'_, R> {}

/// The rows that are still to come.
impl<R: Row> fmt::Debug for RowsIter<'_, R> {
    fn fmt(&self, out: &mut fmt::Formatter<'_>) -> fmt::Result {
        out.debug_list().entries(self.clone()).finish()
    }
}
