//! What the two sets of bits have in common, [`Privileges`](crate::Privileges) and
//! [`Flags`](crate::Flags).

use core::fmt;

/// Gives a tuple struct of one number the operations of a set of bits.
macro_rules! bit_set {
    ($set:ident) => {
        impl $set {
            /// Are all bits of the other set in this one? The empty set is in every set.
            pub const fn contains(self, other: $set) -> bool {
                self.0 & other.0 == other.0
            }

            /// Is no bit in the set?
            pub const fn is_empty(self) -> bool {
                self.0 == 0
            }

            /// The bits that are in one of the sets or in both. It is the operator `|`, for
            /// constants, which cannot be made with an operator.
            pub const fn union(self, other: $set) -> $set {
                $set(self.0 | other.0)
            }
        }

        impl core::ops::BitOr for $set {
            type Output = $set;

            fn bitor(self, other: $set) -> $set {
                self.union(other)
            }
        }

        impl core::ops::BitOrAssign for $set {
            fn bitor_assign(&mut self, other: $set) {
                self.0 |= other.0;
            }
        }

        impl core::ops::BitAnd for $set {
            type Output = $set;

            fn bitand(self, other: $set) -> $set {
                $set(self.0 & other.0)
            }
        }

        impl core::ops::BitAndAssign for $set {
            fn bitand_assign(&mut self, other: $set) {
                self.0 &= other.0;
            }
        }

        impl core::ops::Not for $set {
            type Output = $set;

            fn not(self) -> $set {
                $set(!self.0)
            }
        }
    };
}

pub(crate) use bit_set;

/// Writes the names of the bits in a set, with commas between them. The first name is that of bit
/// 0. A bit that has no name is written as a word and its number.
pub(crate) fn write_names(
    out: &mut fmt::Formatter<'_>,
    bits: u64,
    names: &[&str],
    word: &str,
) -> fmt::Result {
    if bits == 0 {
        return out.write_str("none");
    }
    let mut comma = "";
    for bit in (0..u64::BITS).filter(|bit| bits >> bit & 1 != 0) {
        out.write_str(comma)?;
        comma = ", ";
        match names.get(bit as usize) {
            Some(name) => out.write_str(name)?,
            None => write!(out, "{word} {bit}")?,
        }
    }
    Ok(())
}
