use core::error::Error;
use core::fmt;

/// Makes the type of refusals from a table: documentation, number, name and sentence of each.
macro_rules! refusals {
    ($($(#[$documentation:meta])+ $number:literal $name:ident: $sentence:literal;)+) => {
        /// Why a call was refused: the first of its questions that was answered no.
        ///
        /// Every call asks its questions in the order in which they are listed here, which is not
        /// that of their numbers; none asks them all. A refused call has left every byte of the
        /// image as it was.
        ///
        /// Refusals are ordered as their questions are. Those without a name come last.
        #[non_exhaustive]
        #[derive(Clone, Copy, Debug, PartialEq, Eq, PartialOrd, Ord, Hash)]
        pub enum Refusal {
            $(
                #[doc = concat!(stringify!($number), "\\.")]
                $(#[$documentation])+
                $name,
            )+
            /// A number that this crate does not name. The archive is then newer than the crate.
            /// Tell such refusals apart by [`number`](Refusal::number): a newer crate may give the
            /// number a name.
            Other(u32),
        }

        impl Refusal {
            /// The number of the question.
            pub const fn number(self) -> u32 {
                match self {
                    $(Refusal::$name => $number,)+
                    Refusal::Other(number) => number,
                }
            }

            /// The refusal with this number, [`Other`](Refusal::Other) if it has no name.
            ///
            /// Number 0 is no refusal but a call that was done. It has no name here, and no call
            /// answers it as a refusal.
            ///
            /// ```
            /// use dacm::Refusal;
            ///
            /// assert_eq!(Refusal::from_number(15), Refusal::NotPermitted);
            /// assert_eq!(Refusal::from_number(99), Refusal::Other(99));
            /// ```
            pub const fn from_number(number: u32) -> Refusal {
                match number {
                    $($number => Refusal::$name,)+
                    other => Refusal::Other(other),
                }
            }

            const fn sentence(self) -> &'static str {
                match self {
                    $(Refusal::$name => $sentence,)+
                    Refusal::Other(_) => "this crate has no name for it",
                }
            }
        }
    };
}

refusals! {
    /// The image has fewer than 36 bytes or more than 65,536. Look at the length of the slice.
    1 BadLength: "the image is shorter than 36 or longer than 65,536 bytes";

    /// The header does not fit the image. The total must be the image's length and the first offset
    /// 36; offsets must not decrease or exceed the total; each table must consist of whole rows, not
    /// fewer than it uses; and at least one subject must be in use.
    2 BadLayout: "the header does not fit the image";

    /// A subject row breaks a rule. Row 0 must have parent 0, creator 0 and all privileges; any
    /// other row must have a parent and a creator with lower numbers than its own, and only
    /// privileges that the creator's row has too.
    3 BadSubjectRow: "the subject rows break their rules";

    /// An item row breaks a rule. Its owner must be in use, its list must be 0 or an access list in
    /// use, its flags must not be above 7, and its folder must be lower than its own number. The folder
    /// must not be 0 where the flag [`FOLDER_APPLIES`](crate::Flags::FOLDER_APPLIES) is set.
    4 BadItemRow: "the item rows break their rules";

    /// A line row breaks a rule, or the rows do not ascend by list, kind and subject. Its list must
    /// be an access list in use, its subject must be in use, and kind and subject must be in range
    /// as for [`OutOfRange`](Refusal::OutOfRange).
    5 BadLineRow: "the line rows break their rules";

    /// A grant row breaks a rule, or the rows do not ascend by receiver and role. Receiver, grantor
    /// and domain must be in use, the role must not be 0, and the domain must be the grantor or
    /// below it.
    6 BadGrantRow: "the grant rows break their rules";

    /// A free row is not all zeros. Look at the bytes behind the used rows of each table.
    7 UnusedRowNotZero: "an unused row is not zero";

    /// The subject that makes the call, or that is asked about, is not in use.
    10 UnknownCaller: "the caller or asker is not in use";

    /// Another subject is not in use: the parent, the receiver, the domain, the subject of the line,
    /// the new owner, or one of the two between which steps are counted.
    11 UnknownSubject: "another subject named is not in use";

    /// The item is not in use, or the folder in which an item is to be created. The first item has
    /// number 1. Only as a folder [`Item::NONE`](crate::Item::NONE) is accepted.
    12 UnknownItem: "the item named is not in use";

    /// The slice lent for the counts does not have exactly 32 entries. The crate's own
    /// [`count_holders`](crate::count_holders) lends 32, so it is never refused with this.
    21 BadCountsLength: "the counts do not have exactly 32 entries";

    /// The list is not in use, or is an item without the flag [`IS_LIST`](crate::Flags::IS_LIST).
    /// Only [`bind`](crate::bind) and [`create_item`](crate::create_item) accept
    /// [`Item::NONE`](crate::Item::NONE) for it.
    13 NotAList: "the list named is no access list in use";

    /// An argument is out of range: role 0 to be granted or taken back, a kind above 3, a subject
    /// other than 0 in a line for the owner or for everyone, flags above 7, or the flag
    /// [`FOLDER_APPLIES`](crate::Flags::FOLDER_APPLIES) for an item without a folder.
    14 OutOfRange: "the role, kind, subject or flags are out of range";

    /// The caller may not do this. The documentation of each call says who may.
    15 NotPermitted: "the caller may not do this";

    /// To define a subject: the parent is neither in the caller's tree nor in the tree of the
    /// subject that granted the claimed role. To set a grant: the domain is not in the caller's
    /// tree. The tree of a subject is itself and everybody below it.
    16 OutsideTree: "the parent or domain is outside the tree that it must be in";

    /// The row to remove does not exist. Look at the receiver and role of the grant, or at the list,
    /// kind and subject of the line.
    17 NoSuchRow: "the row to remove is not there";

    /// Another subject granted this role to this receiver. Only that subject may overwrite the
    /// grant; it and the custodian may remove it.
    18 NotTheGrantor: "the grant is another grantor's";

    /// The table has no free row for the new one. Its capacity is fixed in the header.
    19 TableFull: "no row is free";

    /// Nobody but the custodian may edit the list without claiming a role.
    20 NoEditor: "without a role, nobody but the custodian may edit the list";
}

/// ```
/// let refusal = dacm::Refusal::NotPermitted;
/// assert_eq!(refusal.to_string(), "refusal 15: the caller may not do this");
/// ```
impl fmt::Display for Refusal {
    fn fmt(&self, out: &mut fmt::Formatter<'_>) -> fmt::Result {
        write!(out, "refusal {}: {}", self.number(), self.sentence())
    }
}

impl Error for Refusal {}

#[cfg(test)]
mod tests {
    use super::Refusal;
    use std::collections::BTreeSet;
    use std::format;
    use std::string::ToString;
    use std::vec::Vec;

    /// In the order of the questions.
    fn listed() -> impl Iterator<Item = u32> {
        (1..=7).chain(10..=12).chain([21]).chain(13..=20)
    }

    #[test]
    fn the_numbers_with_a_name_are_those_of_the_list() {
        let has_name = |number: &u32| Refusal::from_number(*number) != Refusal::Other(*number);
        let named: BTreeSet<u32> = (0..=100).filter(has_name).collect();
        assert_eq!(named, listed().collect());
    }

    #[test]
    fn a_number_and_its_refusal_belong_together() {
        for number in (0..=100).chain([u32::MAX]) {
            let refusal = Refusal::from_number(number);
            assert_eq!(refusal.number(), number);
            let start = format!("refusal {number}: ");
            assert!(refusal.to_string().starts_with(&start), "{refusal}");
        }
    }

    #[test]
    fn a_number_without_a_name_says_so() {
        let text = Refusal::from_number(99).to_string();
        assert_eq!(text, "refusal 99: this crate has no name for it");
    }

    #[test]
    fn the_order_is_that_of_the_questions() {
        let refusals: Vec<Refusal> = listed().chain([0]).map(Refusal::from_number).collect();
        assert!(refusals.is_sorted(), "{refusals:?}");
    }
}
