use crate::bits::{bit_set, write_names};
use core::fmt;

/// A set of privileges: bit n is position n. None includes another. Positions 7 to 31 are the
/// host's own.
///
/// ```
/// use dacm::Privileges;
///
/// let set = Privileges::READ | Privileges::REPLACE;
/// assert!(set.contains(Privileges::READ));
/// assert!(!set.contains(Privileges::READ | Privileges::DISCARD));
/// assert!((set & Privileges::DISCARD).is_empty());
/// assert_eq!(set & !Privileges::READ, Privileges::REPLACE);
///
/// // A privilege of the host's own, and a constant.
/// const PROJECT: Privileges = Privileges(1 << 9);
/// const SCREENING: Privileges = Privileges::READ.union(PROJECT);
/// assert_eq!(SCREENING.to_string(), "read, position 9");
/// ```
#[repr(transparent)]
#[derive(Clone, Copy, Debug, Default, PartialEq, Eq, PartialOrd, Ord, Hash)]
pub struct Privileges(pub u32);

impl Privileges {
    /// Position 0: read an item.
    pub const READ: Privileges = Privileges(1 << 0);
    /// Position 1: replace an item.
    pub const REPLACE: Privileges = Privileges(1 << 1);
    /// Position 2: discard an item.
    pub const DISCARD: Privileges = Privileges(1 << 2);
    /// Position 3: annotate an item.
    pub const ANNOTATE: Privileges = Privileges(1 << 3);
    /// Position 4: create items.
    pub const CREATE_ITEMS: Privileges = Privileges(1 << 4);
    /// Position 5: define subjects.
    pub const DEFINE_SUBJECTS: Privileges = Privileges(1 << 5);
    /// Position 6: edit an access list.
    pub const EDIT_LIST: Privileges = Privileges(1 << 6);
    /// No privilege.
    pub const NONE: Privileges = Privileges(0);
    /// Every privilege, those of the host's own too.
    pub const ALL: Privileges = Privileges(!0);

    /// How many positions a set has.
    pub const POSITIONS: usize = u32::BITS as usize;

    /// The constants' names in plain words, by position.
    const NAMES: [&'static str; 7] = [
        "read",
        "replace",
        "discard",
        "annotate",
        "create items",
        "define subjects",
        "edit list",
    ];
}

bit_set!(Privileges);

/// The names with commas between them, "position 9" for one of the host's own. The empty set is
/// "none", and the set of every privilege is "all".
impl fmt::Display for Privileges {
    fn fmt(&self, out: &mut fmt::Formatter<'_>) -> fmt::Result {
        match *self {
            Privileges::ALL => out.write_str("all"),
            set => write_names(out, set.0.into(), &Privileges::NAMES, "position"),
        }
    }
}

#[cfg(test)]
mod tests {
    use super::Privileges;
    use std::string::ToString;

    #[test]
    fn display_names_each_privilege() {
        let named = [
            (Privileges::READ, "read"),
            (Privileges::REPLACE, "replace"),
            (Privileges::DISCARD, "discard"),
            (Privileges::ANNOTATE, "annotate"),
            (Privileges::CREATE_ITEMS, "create items"),
            (Privileges::DEFINE_SUBJECTS, "define subjects"),
            (Privileges::EDIT_LIST, "edit list"),
            (Privileges(1 << 7), "position 7"),
            (Privileges(1 << 31), "position 31"),
            (Privileges::NONE, "none"),
            (Privileges::ALL, "all"),
        ];
        for (set, name) in named {
            assert_eq!(set.to_string(), name);
        }
    }

    #[test]
    fn display_puts_commas_between_names() {
        let set = Privileges::EDIT_LIST | Privileges::READ | Privileges(1 << 20);
        assert_eq!(set.to_string(), "read, edit list, position 20");
        let text = (!Privileges::READ).to_string();
        assert!(text.starts_with("replace, discard, "), "{text}");
        assert!(text.ends_with(", position 30, position 31"), "{text}");
    }

    #[test]
    fn a_set_contains_its_subsets() {
        let set = Privileges::READ | Privileges::ANNOTATE;
        for subset in [Privileges::NONE, Privileges::READ, set] {
            assert!(set.contains(subset), "{subset}");
        }
        for other in [Privileges::REPLACE, Privileges(3), Privileges::ALL] {
            assert!(!set.contains(other), "{other}");
        }
        assert!(Privileges::ALL.contains(set));
    }

    #[test]
    fn operators_that_assign() {
        let mut set = Privileges::default();
        assert!(set.is_empty());
        set |= Privileges(0b0110);
        set |= Privileges(0b0001);
        set &= Privileges(0b1101);
        assert_eq!(set, Privileges(0b0101));
    }
}
