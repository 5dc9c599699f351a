//! The view of an image: the rows of its four tables, without a copy.

use super::rows::{
    words, Grant, Item, Line, Subject, GRANT, ITEM, LINE, NO_LIST, NO_ROLE, SUBJECT,
};
use std::ops::Range;

pub const HEADER: usize = 36;

/// One table's rows, as two slices of the image itself.
#[derive(Clone, Copy)]
pub struct Rows<'a, const N: usize> {
    pub used: &'a [[u8; N]],
    pub unused: &'a [[u8; N]],
}

impl<'a, const N: usize> Rows<'a, N> {
    /// The table from offset `start` to offset `end`. None if `end` is below
    /// `start` or past the image, if the bytes are not whole rows, and if more
    /// rows are used than the table can hold. Nothing is added or multiplied, so
    /// no number can overflow.
    fn between(image: &'a [u8], used: u32, start: u32, end: u32) -> Option<Self> {
        let (rows, rest) = image.get(start as usize..end as usize)?.as_chunks::<N>();
        if !rest.is_empty() {
            return None;
        }
        let (used, unused) = rows.split_at_checked(used as usize)?;
        Some(Rows { used, unused })
    }

    pub fn has_free_row(&self) -> bool {
        !self.unused.is_empty()
    }

    pub fn unused_are_zero(&self) -> bool {
        self.unused.iter().all(|row| *row == [0; N])
    }
}

impl<'a> Rows<'a, LINE> {
    /// The table of lines alone, where the header puts it. The other tables are not
    /// looked at. None if it is not within the image.
    pub fn lines(image: &'a [u8]) -> Option<Self> {
        let header: &[u8; HEADER] = image.first_chunk()?;
        let [_, _, _, _, used, start, _, end, _] = words(header);
        Rows::between(image, used, start, end)
    }

    /// The index of this line, or else its insertion index.
    pub fn find_line(&self, list: u32, kind: u32, subject: u32) -> Result<usize, usize> {
        self.used
            .binary_search_by_key(&(list, kind, subject), |row| Line::read(row).key())
    }
}

/// The four tables of an image. `Image::open` makes it only of an accepted image.
/// In that, every subject and item that a row names is in use.
#[derive(Clone, Copy)]
pub struct Image<'a> {
    pub subjects: Rows<'a, SUBJECT>,
    pub grants: Rows<'a, GRANT>,
    pub lines: Rows<'a, LINE>,
    pub items: Rows<'a, ITEM>,
}

impl<'a> Image<'a> {
    /// The tables as the header gives them. None if question 2 is answered no.
    pub fn parse(image: &'a [u8]) -> Option<Image<'a>> {
        let header: &[u8; HEADER] = image.first_chunk()?;
        let [subjects, subjects_at, grants, grants_at, lines, lines_at, items, items_at, total] =
            words(header);
        if total as usize != image.len() || subjects_at as usize != HEADER || subjects == 0 {
            return None;
        }
        Some(Image {
            subjects: Rows::between(image, subjects, subjects_at, grants_at)?,
            grants: Rows::between(image, grants, grants_at, lines_at)?,
            lines: Rows::between(image, lines, lines_at, items_at)?,
            items: Rows::between(image, items, items_at, total)?,
        })
    }

    /// How many subjects are in use. The next new subject gets this number.
    pub fn subject_count(&self) -> u32 {
        self.subjects.used.len() as u32
    }

    pub fn has_subject(&self, subject: u32) -> bool {
        subject < self.subject_count()
    }

    /// The row of a subject in use.
    pub fn subject(&self, subject: u32) -> Subject {
        Subject::read(&self.subjects.used[subject as usize])
    }

    pub fn item_count(&self) -> u32 {
        self.items.used.len() as u32
    }

    /// The row of an item: its index is one below its number. None if the item
    /// is not in use.
    pub fn item(&self, item: u32) -> Option<Item> {
        let row = item.checked_sub(1)?;
        self.items.used.get(row as usize).map(Item::read)
    }

    /// The folder whose permission set applies to the item too, if there is one.
    pub fn folder_of(&self, item: Item) -> Option<Item> {
        self.item(item.applied_folder()?)
    }

    /// The row of an item that is an access list. None if question 13 is answered
    /// no.
    pub fn list(&self, list: u32) -> Option<Item> {
        self.item(list).filter(|item| item.is_list())
    }

    /// The indexes of the list's lines.
    pub fn lines_of(&self, list: u32) -> Range<usize> {
        let lines = self.lines.used;
        let start = lines.partition_point(|row| Line::read(row).list < list);
        let count = lines[start..].partition_point(|row| Line::read(row).list == list);
        start..start + count
    }

    /// The privileges of this line, if there is one. List 0 has no lines.
    pub fn line(&self, list: u32, kind: u32, subject: u32) -> Option<u32> {
        if list == NO_LIST {
            return None;
        }
        let row = self.lines.find_line(list, kind, subject).ok()?;
        Some(Line::read(&self.lines.used[row]).privileges)
    }

    /// The index of this grant, or else its insertion index.
    pub fn find_grant(&self, receiver: u32, role: u32) -> Result<usize, usize> {
        self.grants
            .used
            .binary_search_by_key(&(receiver, role), |row| Grant::read(row).key())
    }

    /// The grant under a claimed role. Role 0 has none. Claiming a role without a
    /// grant is allowed and adds nothing.
    pub fn grant(&self, subject: u32, role: u32) -> Option<Grant> {
        if role == NO_ROLE {
            return None;
        }
        let row = self.find_grant(subject, role).ok()?;
        Some(Grant::read(&self.grants.used[row]))
    }

    /// How many steps it is from the subject up to `head`, from each to its parent.
    /// Each parent has a lower number than its child, so the loop ends. It stops at
    /// the first number that is not above `head`, because the parents beyond are
    /// lower still.
    pub fn steps_up(&self, subject: u32, head: u32) -> Option<u32> {
        let mut reached = subject;
        let mut steps = 0;
        while reached > head {
            reached = self.subject(reached).parent;
            steps += 1;
        }
        (reached == head).then_some(steps)
    }

    /// Is the subject `head` itself or below it?
    pub fn in_tree(&self, subject: u32, head: u32) -> bool {
        self.steps_up(subject, head).is_some()
    }
}
