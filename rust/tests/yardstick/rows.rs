//! The four kinds of rows. A row is an array of fields with a fixed size, so a field is read
//! without a bounds check.

/// A row as it stands in the image: fields of 32 bits, little-endian.
pub type Row<const FIELDS: usize> = [[u8; 4]; FIELDS];

pub type SubjectRow = Row<3>;
pub type GrantRow = Row<5>;
pub type LineRow = Row<4>;
pub type ItemRow = Row<4>;

pub const CUSTODIAN: u32 = 0;
pub const NO_ROLE: u32 = 0;
pub const NO_LIST: u32 = 0;
pub const NO_FOLDER: u32 = 0;
pub const ALL: u32 = u32::MAX;

/// Answered for steps where there are none.
pub const OUTSIDE: u32 = u32::MAX;

/// How many positions a privilege set has.
pub const POSITIONS: usize = 32;

/// Positions 4, 5 and 6 of a privilege set.
pub const CREATE_ITEMS: u32 = 1 << 4;
pub const DEFINE_SUBJECTS: u32 = 1 << 5;
pub const EDIT_LIST: u32 = 1 << 6;

/// The kinds of lines, in the order in which a list's lines stand.
pub const ITSELF: u32 = 0;
pub const GROUP: u32 = 1;
pub const OWNER: u32 = 2;
pub const EVERYONE: u32 = 3;

pub const IS_LIST: u32 = 1;
pub const LOCKED: u32 = 2;
pub const FOLDER_APPLIES: u32 = 4;
pub const HIGHEST_FLAGS: u32 = IS_LIST | LOCKED | FOLDER_APPLIES;

#[derive(Clone, Copy)]
pub struct Subject {
    pub parent: u32,
    pub privileges: u32,
    pub creator: u32,
}

#[derive(Clone, Copy)]
pub struct Grant {
    pub receiver: u32,
    pub role: u32,
    pub grantor: u32,
    pub domain: u32,
    pub privileges: u32,
}

#[derive(Clone, Copy)]
pub struct Line {
    pub list: u32,
    pub kind: u32,
    pub subject: u32,
    pub privileges: u32,
}

#[derive(Clone, Copy)]
pub struct Item {
    pub owner: u32,
    pub list: u32,
    pub flags: u32,
    pub folder: u32,
}

impl Subject {
    #[inline]
    pub fn of(row: &SubjectRow) -> Subject {
        let [parent, privileges, creator] = row.map(u32::from_le_bytes);
        Subject {
            parent,
            privileges,
            creator,
        }
    }

    pub fn row(self) -> SubjectRow {
        [self.parent, self.privileges, self.creator].map(u32::to_le_bytes)
    }
}

impl Grant {
    #[inline]
    pub fn of(row: &GrantRow) -> Grant {
        let [receiver, role, grantor, domain, privileges] = row.map(u32::from_le_bytes);
        Grant {
            receiver,
            role,
            grantor,
            domain,
            privileges,
        }
    }

    pub fn row(self) -> GrantRow {
        let Grant {
            receiver,
            role,
            grantor,
            domain,
            privileges,
        } = self;
        [receiver, role, grantor, domain, privileges].map(u32::to_le_bytes)
    }

    #[inline]
    pub fn key(self) -> u64 {
        grant_key(self.receiver, self.role)
    }
}

impl Line {
    #[inline]
    pub fn of(row: &LineRow) -> Line {
        let [list, kind, subject, privileges] = row.map(u32::from_le_bytes);
        Line {
            list,
            kind,
            subject,
            privileges,
        }
    }

    pub fn row(self) -> LineRow {
        [self.list, self.kind, self.subject, self.privileges].map(u32::to_le_bytes)
    }

    #[inline]
    pub fn key(self) -> u64 {
        line_key(self.list, self.kind, self.subject)
    }

    #[inline]
    pub fn run(self) -> u64 {
        run_key(self.list, self.kind)
    }
}

impl Item {
    #[inline]
    pub fn of(row: &ItemRow) -> Item {
        let [owner, list, flags, folder] = row.map(u32::from_le_bytes);
        Item {
            owner,
            list,
            flags,
            folder,
        }
    }

    pub fn row(self) -> ItemRow {
        [self.owner, self.list, self.flags, self.folder].map(u32::to_le_bytes)
    }

    #[inline]
    pub fn is_list(self) -> bool {
        self.flags & IS_LIST != 0
    }

    pub fn is_locked(self) -> bool {
        self.flags & LOCKED != 0
    }

    /// The folder that applies. It is 0 where none does: in an accepted image a folder that applies is
    /// not 0.
    #[inline]
    pub fn applied_folder(self) -> u32 {
        if self.flags & FOLDER_APPLIES != 0 {
            self.folder
        } else {
            NO_FOLDER
        }
    }
}

/// Grants are sorted by this number. It holds both fields in full.
#[inline]
pub fn grant_key(receiver: u32, role: u32) -> u64 {
    (receiver as u64) << 32 | role as u64
}

/// Lines are sorted by this number. It is the right one if the list is below 2^30 and the kind at
/// most 3; a line beyond that breaks a rule of its own.
#[inline]
pub fn line_key(list: u32, kind: u32, subject: u32) -> u64 {
    (list as u64) << 34 | (kind as u64) << 32 | subject as u64
}

/// Lines of one list and kind stand together, in a run. The runs are sorted by this number, which
/// holds both fields in full.
#[inline]
pub fn run_key(list: u32, kind: u32) -> u64 {
    (list as u64) << 32 | kind as u64
}
