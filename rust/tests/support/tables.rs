//! Images made from rows, and the rows of an accepted image.

use std::iter::successors;

pub const HEADER_BYTES: usize = 36;
const FIELD_BYTES: usize = 4;

/// Flags of an item.
pub const IS_LIST: u32 = 1;
pub const LOCKED: u32 = 2;
pub const FOLDER_APPLIES: u32 = 4;

/// Fields of a row of each table, in the header's order: subjects, grants, lines, items.
pub const ROW_FIELDS: [usize; 4] = [3, 5, 4, 4];

/// One table: its used rows, and how many free rows follow them.
#[derive(Clone, Debug, Default)]
pub struct Table<const FIELDS: usize> {
    pub rows: Vec<[u32; FIELDS]>,
    pub spare: usize,
}

impl<const FIELDS: usize> Table<FIELDS> {
    pub fn used(&self) -> usize {
        self.rows.len()
    }

    fn write(&self, header: &mut Vec<u32>, body: &mut Vec<u8>) {
        header.push(self.rows.len() as u32);
        header.push((HEADER_BYTES + body.len()) as u32);
        body.extend(bytes(self.rows.iter().flatten()));
        body.resize(body.len() + self.spare * FIELDS * FIELD_BYTES, 0);
    }

    fn read(image: &[u8], span: &Span) -> Table<FIELDS> {
        let row = |row| std::array::from_fn(|field| get_field(image, span.field(row, field)));
        Table {
            rows: (0..span.used).map(row).collect(),
            spare: span.capacity - span.used,
        }
    }
}

/// The rows of an image, in the order that the paper gives their fields.
#[derive(Clone, Debug, Default)]
pub struct Tables {
    /// Parent, privileges, creator.
    pub subjects: Table<3>,
    /// Receiver, role, grantor, domain, privileges.
    pub grants: Table<5>,
    /// List, kind, subject, privileges.
    pub lines: Table<4>,
    /// Owner, list, flags, folder.
    pub items: Table<4>,
}

impl Tables {
    pub fn image(&self) -> Vec<u8> {
        let mut header = Vec::new();
        let mut body = Vec::new();
        self.subjects.write(&mut header, &mut body);
        self.grants.write(&mut header, &mut body);
        self.lines.write(&mut header, &mut body);
        self.items.write(&mut header, &mut body);
        header.push((HEADER_BYTES + body.len()) as u32);
        let mut image: Vec<u8> = bytes(&header).collect();
        image.append(&mut body);
        image
    }

    /// The rows of an accepted image.
    pub fn read(image: &[u8]) -> Tables {
        let [subjects, grants, lines, items] = spans(image);
        Tables {
            subjects: Table::read(image, &subjects),
            grants: Table::read(image, &grants),
            lines: Table::read(image, &lines),
            items: Table::read(image, &items),
        }
    }

    /// The numbers of the items that are access lists.
    pub fn lists(&self) -> Vec<u32> {
        (1..)
            .zip(&self.items.rows)
            .filter(|(_, [_, _, flags, _])| flags & IS_LIST != 0)
            .map(|(number, _)| number)
            .collect()
    }

    /// The owner of an item in use.
    pub fn owner_of(&self, item: u32) -> u32 {
        let [owner, ..] = self.item(item);
        owner
    }

    /// The list of an item in use.
    pub fn list_of(&self, item: u32) -> u32 {
        let [_, list, ..] = self.item(item);
        list
    }

    /// The folder that applies to an item in use, if one does.
    pub fn folder_of(&self, item: u32) -> Option<u32> {
        let [_, _, flags, folder] = self.item(item);
        (flags & FOLDER_APPLIES != 0).then_some(folder)
    }

    /// An item in use and the folders that apply, each to the one before it.
    pub fn way_up(&self, item: u32) -> Vec<u32> {
        successors(Some(item), |&item| self.folder_of(item)).collect()
    }

    /// The row of an item in use.
    fn item(&self, item: u32) -> [u32; 4] {
        self.items.rows[item as usize - 1]
    }

    /// The privileges of a line, if there is one.
    pub fn line(&self, list: u32, kind: u32, subject: u32) -> Option<u32> {
        let is_it = |row: &&[u32; 4]| row[..3] == [list, kind, subject];
        self.lines.rows.iter().find(is_it).map(|row| row[3])
    }

    /// The domain of a grant, if there is one. Role 0 is never granted.
    pub fn domain_of(&self, receiver: u32, role: u32) -> Option<u32> {
        let is_it = |row: &&[u32; 5]| row[..2] == [receiver, role];
        self.grants.rows.iter().find(is_it).map(|row| row[3])
    }

    /// How many steps it is from a subject up to the head of a tree: where the head stands on the whole
    /// way from the subject to the custodian.
    pub fn steps_up(&self, subject: u32, head: u32) -> Option<u32> {
        let parent = |&reached: &u32| match reached {
            0 => None,
            _ => Some(self.subjects.rows[reached as usize][0]),
        };
        let mut way_up = (0..).zip(successors(Some(subject), parent));
        way_up
            .find(|(_, reached)| *reached == head)
            .map(|(steps, _)| steps)
    }

    /// Is the subject the head or below it?
    pub fn in_tree(&self, subject: u32, head: u32) -> bool {
        self.steps_up(subject, head).is_some()
    }
}

/// A table in an image: the offset of its first row, its used rows, its capacity, and the bytes of a
/// row.
#[derive(Clone, Copy, Debug)]
pub struct Span {
    pub start: usize,
    pub used: usize,
    pub capacity: usize,
    pub row_bytes: usize,
}

impl Span {
    /// The offset of the row with this index.
    pub fn row(&self, row: usize) -> usize {
        self.start + row * self.row_bytes
    }

    /// The number of a field, counted from the start of the image.
    pub fn field(&self, row: usize, field: usize) -> usize {
        self.row(row) / FIELD_BYTES + field
    }
}

/// The tables of an accepted image, in the header's order.
pub fn spans(image: &[u8]) -> [Span; 4] {
    std::array::from_fn(|table| {
        let start = get_field(image, 2 * table + 1) as usize;
        let next = if table < 3 { 2 * table + 3 } else { 8 };
        let row_bytes = ROW_FIELDS[table] * FIELD_BYTES;
        Span {
            start,
            used: get_field(image, 2 * table) as usize,
            capacity: (get_field(image, next) as usize - start) / row_bytes,
            row_bytes,
        }
    })
}

/// How many whole fields an image has.
pub fn field_count(image: &[u8]) -> usize {
    image.len() / FIELD_BYTES
}

pub fn get_field(image: &[u8], field: usize) -> u32 {
    let start = field * FIELD_BYTES;
    let bytes = image[start..start + FIELD_BYTES].try_into();
    u32::from_le_bytes(bytes.expect("a field has 4 bytes"))
}

pub fn set_field(image: &mut [u8], field: usize, value: u32) {
    let start = field * FIELD_BYTES;
    image[start..start + FIELD_BYTES].copy_from_slice(&value.to_le_bytes());
}

fn bytes<'a>(fields: impl IntoIterator<Item = &'a u32> + 'a) -> impl Iterator<Item = u8> + 'a {
    fields.into_iter().flat_map(|field| field.to_le_bytes())
}
