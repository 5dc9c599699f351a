//! Writing rows. Of the header, only the counts of used rows ever change: offsets,
//! capacities and the total stay the same.

use super::rows::{word, GRANT, ITEM, LINE, SUBJECT};

/// A table of rows of N bytes. `count_at` is the offset of the header field with
/// its count of used rows. The next field is the table's own offset.
pub struct Table<const N: usize> {
    count_at: usize,
}

pub const SUBJECTS: Table<SUBJECT> = Table { count_at: 0 };
pub const GRANTS: Table<GRANT> = Table { count_at: 8 };
pub const LINES: Table<LINE> = Table { count_at: 16 };
pub const ITEMS: Table<ITEM> = Table { count_at: 24 };

impl<const N: usize> Table<N> {
    fn count(&self, image: &[u8]) -> u32 {
        word(image, self.count_at)
    }

    fn set_count(&self, image: &mut [u8], count: u32) {
        image[self.count_at..self.count_at + 4].copy_from_slice(&count.to_le_bytes());
    }

    /// The offset of the row with this index.
    pub fn start(&self, image: &[u8], row: usize) -> usize {
        word(image, self.count_at + 4) as usize + N * row
    }

    /// The offset behind the last used row.
    fn end(&self, image: &[u8]) -> usize {
        self.start(image, self.count(image) as usize)
    }

    pub fn overwrite(&self, image: &mut [u8], row: usize, bytes: [u8; N]) {
        let start = self.start(image, row);
        image[start..start + N].copy_from_slice(&bytes);
    }

    /// Puts a new row at its insertion index. The rows from there on move up by
    /// one. Question 19 has made sure of a free row.
    pub fn insert(&self, image: &mut [u8], row: usize, bytes: [u8; N]) {
        let start = self.start(image, row);
        let end = self.end(image);
        image.copy_within(start..end, start + N);
        image[start..start + N].copy_from_slice(&bytes);
        self.set_count(image, self.count(image) + 1);
    }

    /// Removes a row. The rows behind it move down by one, and the row that becomes
    /// free is filled with zeros.
    pub fn remove(&self, image: &mut [u8], row: usize) {
        let start = self.start(image, row);
        let end = self.end(image);
        image.copy_within(start + N..end, start);
        image[end - N..end].fill(0);
        self.set_count(image, self.count(image) - 1);
    }
}
