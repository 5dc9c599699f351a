//! The view of an image: its four tables as slices of rows, without a copy.

use super::list::List;
use super::rows::{grant_key, Grant, Item, Line, Row, Subject, NO_ROLE};
use super::tree::Tree;
use std::array;

pub const HEADER_BYTES: usize = 36;

/// The fields of the header. None where the image is shorter than that.
#[inline]
fn header(image: &[u8]) -> Option<[u32; 9]> {
    let bytes: &[u8; HEADER_BYTES] = image.first_chunk()?;
    let (fields, _) = bytes.as_chunks();
    Some(array::from_fn(|n| u32::from_le_bytes(fields[n])))
}

/// The rows of one table.
#[derive(Clone, Copy)]
pub struct Rows<'a, const FIELDS: usize> {
    pub used: &'a [Row<FIELDS>],
    pub unused: &'a [Row<FIELDS>],
}

impl<'a, const FIELDS: usize> Rows<'a, FIELDS> {
    /// None unless these are whole rows within the image, and enough of them.
    #[inline]
    fn between(image: &'a [u8], used: u32, start: u32, end: u32) -> Option<Self> {
        let bytes = image.get(start as usize..end as usize)?;
        let (fields, no_bytes) = bytes.as_chunks();
        let (rows, no_fields) = fields.as_chunks();
        if !no_bytes.is_empty() || !no_fields.is_empty() {
            return None;
        }
        let (used, unused) = rows.split_at_checked(used as usize)?;
        Some(Rows { used, unused })
    }

    pub fn has_free_row(&self) -> bool {
        !self.unused.is_empty()
    }
}

impl<'a> Rows<'a, 4> {
    /// The lines alone, where the header puts them. None where they are not within the image.
    #[inline]
    pub fn lines(image: &'a [u8]) -> Option<Self> {
        let header = header(image)?;
        Rows::between(image, header[4], header[5], header[7])
    }

    /// Where the line with this key is, or else where it would be.
    pub fn find_line(&self, key: u64) -> Result<usize, usize> {
        self.used
            .binary_search_by_key(&key, |row| Line::of(row).key())
    }
}

/// The tables of an image. Below `opening` they are those of an accepted image.
#[derive(Clone, Copy)]
pub struct Tables<'a> {
    pub subjects: Rows<'a, 3>,
    pub grants: Rows<'a, 5>,
    pub lines: Rows<'a, 4>,
    pub items: Rows<'a, 4>,
}

impl<'a> Tables<'a> {
    /// The tables as the header lays them out. None where question 2 is answered no.
    #[inline]
    pub fn laid_out(image: &'a [u8]) -> Option<Tables<'a>> {
        let header = header(image)?;
        let total = header[8];
        if total as usize != image.len() || header[1] as usize != HEADER_BYTES || header[0] == 0 {
            return None;
        }
        Some(Tables {
            subjects: Rows::between(image, header[0], header[1], header[3])?,
            grants: Rows::between(image, header[2], header[3], header[5])?,
            lines: Rows::between(image, header[4], header[5], header[7])?,
            items: Rows::between(image, header[6], header[7], total)?,
        })
    }

    pub fn tree(&self) -> Tree<'a> {
        Tree::of(self.subjects.used)
    }

    /// How many subjects there are. The next one gets this number.
    pub fn subject_count(&self) -> u32 {
        self.subjects.used.len() as u32
    }

    pub fn has_subject(&self, subject: u32) -> bool {
        subject < self.subject_count()
    }

    /// A subject in use.
    pub fn subject(&self, subject: u32) -> Subject {
        Subject::of(&self.subjects.used[subject as usize])
    }

    pub fn item(&self, number: u32) -> Option<Item> {
        let row = self.items.used.get(item_index(number))?;
        Some(Item::of(row))
    }

    /// The folder that applies to an item, if one does.
    #[inline]
    pub fn folder_of(&self, item: Item) -> Option<Item> {
        self.item(item.applied_folder())
    }

    /// The item that is the list. None where question 13 is answered no.
    pub fn list(&self, number: u32) -> Option<Item> {
        self.item(number).filter(|item| item.is_list())
    }

    /// The index of the list's first line, and its lines.
    pub fn lines_of(&self, list: u32) -> (usize, &'a [Row<4>]) {
        let lines = self.lines.used;
        let start = lines.partition_point(|row| Line::of(row).list < list);
        let count = lines[start..].partition_point(|row| Line::of(row).list == list);
        (start, &lines[start..start + count])
    }

    /// An item's list. List 0 has no lines.
    #[inline]
    pub fn list_of(&self, item: Item) -> List<'a> {
        let lines = self.lines.used;
        let end = lines.partition_point(|row| Line::of(row).list <= item.list);
        List::at_end(&lines[..end], item.list)
    }

    /// Where the grant is, or else where it would be.
    pub fn find_grant(&self, receiver: u32, role: u32) -> Result<usize, usize> {
        let key = grant_key(receiver, role);
        let grants = self.grants.used;
        grants.binary_search_by_key(&key, |row| Grant::of(row).key())
    }

    /// The grant under a claimed role, if the role is granted.
    #[inline]
    pub fn grant(&self, subject: u32, role: u32) -> Option<Grant> {
        if role == NO_ROLE {
            return None;
        }
        let index = self.find_grant(subject, role).ok()?;
        Some(Grant::of(&self.grants.used[index]))
    }
}

/// The index of an item's row. Item 0 gets an index that no table has.
#[inline]
pub fn item_index(number: u32) -> usize {
    number.wrapping_sub(1) as usize
}
