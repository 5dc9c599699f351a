//! The four kinds of rows, made from their bytes and turned back into them.

use std::array;

/// How many bytes a row of each table has.
pub const SUBJECT: usize = 12;
pub const GRANT: usize = 20;
pub const LINE: usize = 16;
pub const ITEM: usize = 16;

pub const CUSTODIAN: u32 = 0;
pub const ALL: u32 = u32::MAX;
pub const NO_ROLE: u32 = 0;
pub const NO_LIST: u32 = 0;
pub const NO_FOLDER: u32 = 0;

/// How many positions a privilege set has.
pub const POSITIONS: usize = 32;

/// Kinds of lines, in their sorted order.
pub const ITSELF: u32 = 0;
pub const GROUP: u32 = 1;
pub const OWNER: u32 = 2;
pub const EVERYONE: u32 = 3;

/// Flags of an item.
pub const IS_LIST: u32 = 1;
pub const LOCKED: u32 = 2;
pub const FOLDER_APPLIES: u32 = 4;
pub const ALL_FLAGS: u32 = IS_LIST | LOCKED | FOLDER_APPLIES;

#[derive(Clone, Copy, PartialEq, Eq)]
pub struct Subject {
    pub parent: u32,
    pub privileges: u32,
    pub creator: u32,
}

#[derive(Clone, Copy)]
pub struct Grant {
    pub receiver: u32,
    pub role: u32,
    pub grantor: u32,
    pub domain: u32,
    pub privileges: u32,
}

#[derive(Clone, Copy)]
pub struct Line {
    pub list: u32,
    pub kind: u32,
    pub subject: u32,
    pub privileges: u32,
}

#[derive(Clone, Copy)]
pub struct Item {
    pub owner: u32,
    pub list: u32,
    pub flags: u32,
    pub folder: u32,
}

impl Subject {
    pub fn read(row: &[u8; SUBJECT]) -> Subject {
        let [parent, privileges, creator] = words(row);
        Subject {
            parent,
            privileges,
            creator,
        }
    }

    pub fn bytes(self) -> [u8; SUBJECT] {
        bytes([self.parent, self.privileges, self.creator])
    }
}

impl Grant {
    pub fn read(row: &[u8; GRANT]) -> Grant {
        let [receiver, role, grantor, domain, privileges] = words(row);
        Grant {
            receiver,
            role,
            grantor,
            domain,
            privileges,
        }
    }

    pub fn bytes(self) -> [u8; GRANT] {
        bytes([
            self.receiver,
            self.role,
            self.grantor,
            self.domain,
            self.privileges,
        ])
    }

    /// The table is sorted by this key, and no two rows have the same.
    pub fn key(self) -> (u32, u32) {
        (self.receiver, self.role)
    }
}

impl Line {
    pub fn read(row: &[u8; LINE]) -> Line {
        let [list, kind, subject, privileges] = words(row);
        Line {
            list,
            kind,
            subject,
            privileges,
        }
    }

    pub fn bytes(self) -> [u8; LINE] {
        bytes([self.list, self.kind, self.subject, self.privileges])
    }

    /// The table is sorted by this key, and no two rows have the same.
    pub fn key(self) -> (u32, u32, u32) {
        (self.list, self.kind, self.subject)
    }
}

impl Item {
    pub fn read(row: &[u8; ITEM]) -> Item {
        let [owner, list, flags, folder] = words(row);
        Item {
            owner,
            list,
            flags,
            folder,
        }
    }

    pub fn bytes(self) -> [u8; ITEM] {
        bytes([self.owner, self.list, self.flags, self.folder])
    }

    pub fn is_list(self) -> bool {
        self.flags & IS_LIST != 0
    }

    pub fn is_locked(self) -> bool {
        self.flags & LOCKED != 0
    }

    /// The number of the folder that applies. None if the item has no folder, or has
    /// one without the flag.
    pub fn applied_folder(self) -> Option<u32> {
        (self.flags & FOLDER_APPLIES != 0).then_some(self.folder)
    }
}

/// Are there no flags but those of an item, and is there a folder where one is to
/// apply? This is a rule of the item rows, and of the arguments of create item.
pub fn flags_in_range(flags: u32, folder: u32) -> bool {
    flags <= ALL_FLAGS && (flags & FOLDER_APPLIES == 0 || folder != NO_FOLDER)
}

/// Is this a kind of line, and is the subject 0 where the kind requires it? This
/// is a rule of the line rows, and of the arguments of set line and remove line.
pub fn line_in_range(kind: u32, subject: u32) -> bool {
    match kind {
        ITSELF | GROUP => true,
        OWNER | EVERYONE => subject == 0,
        _ => false,
    }
}

/// The fields of a row: 4 bytes each, little-endian.
pub fn words<const N: usize, const FIELDS: usize>(row: &[u8; N]) -> [u32; FIELDS] {
    array::from_fn(|n| word(row, 4 * n))
}

pub fn word(bytes: &[u8], at: usize) -> u32 {
    let field = &bytes[at..at + 4];
    u32::from_le_bytes([field[0], field[1], field[2], field[3]])
}

fn bytes<const N: usize, const FIELDS: usize>(fields: [u32; FIELDS]) -> [u8; N] {
    let mut row = [0; N];
    for (chunk, field) in row.chunks_exact_mut(4).zip(fields) {
        chunk.copy_from_slice(&field.to_le_bytes());
    }
    row
}
