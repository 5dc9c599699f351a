//! Fields of rows with few valid values. They are numbers and not enums, because the calls
//! themselves refuse a value out of range, with
//! [`Refusal::OutOfRange`](crate::Refusal::OutOfRange).

use crate::bits::{bit_set, write_names};
use core::fmt;

/// Whom a line of an access list is for.
#[repr(transparent)]
#[derive(Clone, Copy, Debug, PartialEq, Eq, PartialOrd, Ord, Hash)]
pub struct Kind(pub u32);

impl Kind {
    /// The subject that the line names.
    pub const ITSELF: Kind = Kind(0);
    /// Everybody below the subject that the line names, but not that subject itself.
    pub const GROUP: Kind = Kind(1);
    /// The owner of the item that is asked about. The line names subject 0.
    pub const OWNER: Kind = Kind(2);
    /// Everyone, in addition to what the other lines give. The line names subject 0.
    pub const EVERYONE: Kind = Kind(3);
}

/// ```
/// assert_eq!(dacm::Kind::EVERYONE.to_string(), "everyone");
/// assert_eq!(dacm::Kind(7).to_string(), "kind 7");
/// ```
impl fmt::Display for Kind {
    fn fmt(&self, out: &mut fmt::Formatter<'_>) -> fmt::Result {
        match *self {
            Kind::ITSELF => out.write_str("itself"),
            Kind::GROUP => out.write_str("group"),
            Kind::OWNER => out.write_str("owner"),
            Kind::EVERYONE => out.write_str("everyone"),
            Kind(other) => write!(out, "kind {other}"),
        }
    }
}

/// The flags of an item.
///
/// ```
/// use dacm::Flags;
///
/// let flags = Flags::IS_LIST | Flags::FOLDER_APPLIES;
/// assert!(flags.contains(Flags::IS_LIST));
/// assert_eq!(flags.to_string(), "list, folder applies");
/// ```
#[repr(transparent)]
#[derive(Clone, Copy, Debug, Default, PartialEq, Eq, PartialOrd, Ord, Hash)]
pub struct Flags(pub u32);

impl Flags {
    /// None of the three flags.
    pub const NONE: Flags = Flags(0);
    /// The item is an access list.
    pub const IS_LIST: Flags = Flags(1);
    /// The item is locked: its owner may not bind it. The custodian may.
    pub const LOCKED: Flags = Flags(2);
    /// The permission set on the item's folder applies too: the permission set on the item has only
    /// what is in it. An item with this flag must have a folder.
    pub const FOLDER_APPLIES: Flags = Flags(4);
}

bit_set!(Flags);

/// The names with commas between them, "bit 4" for one that is no flag. Without a flag it is "none".
impl fmt::Display for Flags {
    fn fmt(&self, out: &mut fmt::Formatter<'_>) -> fmt::Result {
        let names = ["list", "locked", "folder applies"];
        write_names(out, self.0.into(), &names, "bit")
    }
}

#[cfg(test)]
mod tests {
    use super::{Flags, Kind};
    use std::string::ToString;

    #[test]
    fn display_of_kinds() {
        let names = ["itself", "group", "owner", "everyone", "kind 4"];
        for (kind, name) in (0..).map(Kind).zip(names) {
            assert_eq!(kind.to_string(), name);
        }
        assert_eq!(Kind(u32::MAX).to_string(), "kind 4294967295");
    }

    #[test]
    fn display_of_flags() {
        let named = [
            (Flags::NONE, "none"),
            (Flags::IS_LIST, "list"),
            (Flags::LOCKED, "locked"),
            (Flags::FOLDER_APPLIES, "folder applies"),
            (Flags::IS_LIST | Flags::LOCKED, "list, locked"),
            (Flags(7), "list, locked, folder applies"),
            (Flags::LOCKED | Flags(1 << 4), "locked, bit 4"),
            (Flags(1 << 3), "bit 3"),
            (Flags(1 << 31), "bit 31"),
        ];
        for (flags, name) in named {
            assert_eq!(flags.to_string(), name);
        }
    }

    #[test]
    fn flags_contain_some_of_them() {
        assert!((Flags::IS_LIST | Flags::LOCKED).contains(Flags::LOCKED));
        assert!(!Flags::IS_LIST.contains(Flags::LOCKED));
        assert!(Flags::NONE.contains(Flags::NONE));
        assert!((Flags::LOCKED & !Flags::LOCKED).is_empty());
    }
}
