//! Writing rows. Offsets and the total never change, only counts of used rows.

use super::rows::Row;

/// A table by its index in the header, which has a count and an offset for each.
pub struct Table<const FIELDS: usize> {
    index_in_header: usize,
}

pub const SUBJECTS: Table<3> = Table { index_in_header: 0 };
pub const GRANTS: Table<5> = Table { index_in_header: 1 };
pub const LINES: Table<4> = Table { index_in_header: 2 };
pub const ITEMS: Table<4> = Table { index_in_header: 3 };

impl<const FIELDS: usize> Table<FIELDS> {
    /// The offset of a row.
    pub fn offset(&self, image: &[u8], index: usize) -> usize {
        let (fields, _) = image.as_chunks();
        let start = u32::from_le_bytes(fields[2 * self.index_in_header + 1]);
        start as usize + 4 * FIELDS * index
    }

    pub fn overwrite(&self, image: &mut [u8], index: usize, row: Row<FIELDS>) {
        let (_, rows) = self.open(image);
        rows[index] = row;
    }

    /// Puts a row at its insertion index. The rows from there on move up; one is free.
    pub fn insert(&self, image: &mut [u8], index: usize, row: Row<FIELDS>) {
        let (count, rows) = self.open(image);
        let used = u32::from_le_bytes(*count);
        rows.copy_within(index..used as usize, index + 1);
        rows[index] = row;
        *count = (used + 1).to_le_bytes();
    }

    /// Removes a row. The rows behind it move down, and the last one becomes free.
    pub fn remove(&self, image: &mut [u8], index: usize) {
        let (count, rows) = self.open(image);
        let used = u32::from_le_bytes(*count);
        let last = used as usize - 1;
        rows.copy_within(index + 1..=last, index);
        rows[last] = [[0; 4]; FIELDS];
        *count = (used - 1).to_le_bytes();
    }

    /// The count of used rows, and the rows from the table's first to the end of the image.
    fn open<'a>(&self, image: &'a mut [u8]) -> (&'a mut [u8; 4], &'a mut [Row<FIELDS>]) {
        let start = self.offset(image, 0);
        let (header, rows) = image.split_at_mut(start);
        let (header, _) = header.as_chunks_mut();
        let (rows, _) = rows.as_chunks_mut();
        let (rows, _) = rows.as_chunks_mut();
        (&mut header[2 * self.index_in_header], rows)
    }
}
