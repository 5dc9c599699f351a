//! The numbers of subjects, items and roles. Each has a type of its own, so that one cannot be
//! passed for another.

/// The number of a subject: the index of its row.
#[repr(C)]
#[derive(Clone, Copy, Debug, PartialEq, Eq, PartialOrd, Ord, Hash)]
pub struct Subject(pub u32);

impl Subject {
    /// Subject 0, who has all privileges on every item.
    pub const CUSTODIAN: Subject = Subject(0);
}

/// The number of an item: the index of its row, plus 1. Access lists are items too.
#[repr(C)]
#[derive(Clone, Copy, Debug, PartialEq, Eq, PartialOrd, Ord, Hash)]
pub struct Item(pub u32);

impl Item {
    /// No list, or no folder. An item that is created under it or bound to it has no list. One that is
    /// created in it has no folder.
    pub const NONE: Item = Item(0);
}

/// The number of a role. It has a meaning only in the grants that name it.
#[repr(C)]
#[derive(Clone, Copy, Debug, PartialEq, Eq, PartialOrd, Ord, Hash)]
pub struct Role(pub u32);

impl Role {
    /// No role: the caller or asker claims none. It cannot be granted.
    pub const NONE: Role = Role(0);
}
