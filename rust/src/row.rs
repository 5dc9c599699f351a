//! The rows of the four tables as types.

use crate::bytes::{read_fields, FIELD_BYTES};
use crate::{Flags, Item, Kind, Privileges, Role, Subject};
use core::fmt::Debug;

/// A row of one of the four tables.
///
/// The row types of this crate are the only ones: no other crate can implement the trait.
pub trait Row: Copy + Debug + Eq + sealed::Sealed {
    /// How many bytes the row has in an image.
    const BYTES: usize;

    /// The row in these bytes, if they are [`BYTES`](Row::BYTES) many.
    ///
    /// Any number is taken for a field. Whether a row holds its rules is for
    /// [`check`](crate::check) to say.
    fn from_bytes(bytes: &[u8]) -> Option<Self>;
}

mod sealed {
    pub trait Sealed {}
}

/// A subject. Its number is the index of its row.
#[derive(Clone, Copy, Debug, PartialEq, Eq, Hash)]
pub struct SubjectRow {
    /// The subject above this one. The custodian has itself here.
    pub parent: Subject,
    /// What the subject may do at all without a role.
    pub privileges: Privileges,
    /// The subject that defined this one. The custodian has itself here.
    pub creator: Subject,
}

/// A role granted to a subject. Grants are sorted by receiver, then by role.
#[derive(Clone, Copy, Debug, PartialEq, Eq, Hash)]
pub struct GrantRow {
    /// The subject that may claim the role.
    pub receiver: Subject,
    /// The role.
    pub role: Role,
    /// The subject that granted it. The role gives nothing that this subject does not have.
    pub grantor: Subject,
    /// The role counts for items whose owner is this subject or below it.
    pub domain: Subject,
    /// What the role gives at most.
    pub privileges: Privileges,
}

/// A line of an access list. Lines are sorted by list, then by kind, then by subject.
#[derive(Clone, Copy, Debug, PartialEq, Eq, Hash)]
pub struct LineRow {
    /// The list that the line belongs to.
    pub list: Item,
    /// Whom the line is for.
    pub kind: Kind,
    /// The subject that the line names: subject 0 where the line is for the owner or for everyone.
    pub subject: Subject,
    /// What the line gives.
    pub privileges: Privileges,
}

/// An item: a document or an access list. Its number is the index of its row, plus 1.
#[derive(Clone, Copy, Debug, PartialEq, Eq, Hash)]
pub struct ItemRow {
    /// The subject that owns the item.
    pub owner: Subject,
    /// The access list that governs the item, or [`Item::NONE`].
    pub list: Item,
    /// Whether the item is an access list, whether it is locked, and whether its folder applies.
    pub flags: Flags,
    /// The folder that the item is in, or [`Item::NONE`]. Its number is lower than the item's. It
    /// has an effect only with the flag [`FOLDER_APPLIES`](Flags::FOLDER_APPLIES).
    pub folder: Item,
}

impl Row for SubjectRow {
    const BYTES: usize = 3 * FIELD_BYTES;

    fn from_bytes(bytes: &[u8]) -> Option<SubjectRow> {
        let [parent, privileges, creator] = read_fields(bytes)?;
        Some(SubjectRow {
            parent: Subject(parent),
            privileges: Privileges(privileges),
            creator: Subject(creator),
        })
    }
}

impl Row for GrantRow {
    const BYTES: usize = 5 * FIELD_BYTES;

    fn from_bytes(bytes: &[u8]) -> Option<GrantRow> {
        let [receiver, role, grantor, domain, privileges] = read_fields(bytes)?;
        Some(GrantRow {
            receiver: Subject(receiver),
            role: Role(role),
            grantor: Subject(grantor),
            domain: Subject(domain),
            privileges: Privileges(privileges),
        })
    }
}

impl Row for LineRow {
    const BYTES: usize = 4 * FIELD_BYTES;

    fn from_bytes(bytes: &[u8]) -> Option<LineRow> {
        let [list, kind, subject, privileges] = read_fields(bytes)?;
        Some(LineRow {
            list: Item(list),
            kind: Kind(kind),
            subject: Subject(subject),
            privileges: Privileges(privileges),
        })
    }
}

impl Row for ItemRow {
    const BYTES: usize = 4 * FIELD_BYTES;

    fn from_bytes(bytes: &[u8]) -> Option<ItemRow> {
        let [owner, list, flags, folder] = read_fields(bytes)?;
        Some(ItemRow {
            owner: Subject(owner),
            list: Item(list),
            flags: Flags(flags),
            folder: Item(folder),
        })
    }
}

impl sealed::Sealed for SubjectRow {}
impl sealed::Sealed for GrantRow {}
impl sealed::Sealed for LineRow {}
impl sealed::Sealed for ItemRow {}

#[cfg(test)]
mod tests {
    use super::{GrantRow, ItemRow, LineRow, Row, SubjectRow};
    use crate::{Flags, Item, Kind, Privileges, Role, Subject};

    /// 20 bytes, of which each field has its own.
    const BYTES: [u8; 20] = [
        1, 0, 0, 0, 2, 0, 0, 0, 3, 0, 0, 0, 4, 0, 0, 0, 5, 6, 7, 0x80,
    ];

    #[test]
    fn each_field_is_read_from_its_own_bytes() {
        let subject = SubjectRow {
            parent: Subject(1),
            privileges: Privileges(2),
            creator: Subject(3),
        };
        let grant = GrantRow {
            receiver: Subject(1),
            role: Role(2),
            grantor: Subject(3),
            domain: Subject(4),
            privileges: Privileges(0x8007_0605),
        };
        let line = LineRow {
            list: Item(1),
            kind: Kind(2),
            subject: Subject(3),
            privileges: Privileges(4),
        };
        let item = ItemRow {
            owner: Subject(1),
            list: Item(2),
            flags: Flags(3),
            folder: Item(4),
        };
        assert_eq!(SubjectRow::from_bytes(&BYTES[..12]), Some(subject));
        assert_eq!(GrantRow::from_bytes(&BYTES), Some(grant));
        assert_eq!(LineRow::from_bytes(&BYTES[..16]), Some(line));
        assert_eq!(ItemRow::from_bytes(&BYTES[..16]), Some(item));
    }

    #[test]
    fn no_row_in_more_or_fewer_bytes() {
        for length in (0..=20).filter(|&length| length != SubjectRow::BYTES) {
            assert_eq!(SubjectRow::from_bytes(&BYTES[..length]), None, "{length}");
        }
    }
}
