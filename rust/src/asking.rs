//! The calls that ask. None of them changes the image.

use crate::{ffi, Explanation, Item, LineRow, Privileges, Refusal, Role, Row, Subject};

/// Is this an image that the other calls work on?
///
/// Every other call asks the same questions first, so there is no need to check before it.
pub fn check(image: &[u8]) -> Result<(), Refusal> {
    ffi::check(image).done()
}

/// The operation set: what a subject under a role may do at all, whatever the item.
///
/// A role that is not granted to the subject adds nothing and is no refusal.
pub fn operation_set(image: &[u8], subject: Subject, role: Role) -> Result<Privileges, Refusal> {
    ffi::operation_set(image, subject, role)
        .result()
        .map(Privileges)
}

/// The permission set: what a subject under a role may do with an item. [`explain`] says why.
///
/// It is the item's own set: what the lines of its list and the role give, as far as it is in the
/// operation set. Where the item's folder applies, it is what the own set shares with the permission
/// set on the folder.
///
/// A role that is not granted to the subject adds nothing and is no refusal.
pub fn permission_set(
    image: &[u8],
    subject: Subject,
    role: Role,
    item: Item,
) -> Result<Privileges, Refusal> {
    ffi::permission_set(image, subject, role, item)
        .result()
        .map(Privileges)
}

/// Which rule decided the item's own set, what makes it up, and which folder applies too. For whoever
/// has to say why a subject may or may not do something with an item.
///
/// It is refused where [`permission_set`] is.
///
/// ```
/// use dacm::{Capacities, Flags, Item, Kind, Privileges, Refusal, Role, Rule, Subject};
///
/// # fn main() -> Result<(), Refusal> {
/// # let (custodian, no_role) = (Subject::CUSTODIAN, Role::NONE);
/// # let capacities = Capacities { subjects: 2, grants: 0, lines: 2, items: 1 };
/// # let mut image = capacities.empty_image()?;
/// let his = Privileges::READ | Privileges::REPLACE;
/// let technician = dacm::define_subject(&mut image, custodian, no_role, custodian, his)?;
/// let (is_list, no_item) = (Flags::IS_LIST, Item::NONE);
/// let list = dacm::create_item(&mut image, custodian, no_role, no_item, is_list, no_item)?;
/// dacm::bind(&mut image, custodian, list, list)?;
/// let (own, none) = (Kind::ITSELF, Privileges::NONE);
/// dacm::set_line(&mut image, custodian, no_role, list, own, technician, none)?;
/// let (everyone, read) = (Kind::EVERYONE, Privileges::READ);
/// dacm::set_line(&mut image, custodian, no_role, list, everyone, custodian, read)?;
///
/// // Why may the technician not replace the list?
/// let explanation = dacm::explain(&image, technician, no_role, list)?;
/// assert_eq!(explanation.rule, Rule::OwnLine);
/// assert_eq!(explanation.rule_set, Privileges::NONE);
/// assert_eq!(explanation.everyone_set, Privileges::READ);
/// assert_eq!(explanation.operations, his);
/// assert_eq!(
///     explanation.to_string(),
///     "The subject's own line decided and gives nothing; everyone's line adds read; the role adds \
///      nothing; of these the operation set lets through read."
/// );
///
/// // No folder applies, so this is the permission set too.
/// assert_eq!(explanation.folder, None);
/// let set = dacm::permission_set(&image, technician, no_role, list)?;
/// assert_eq!(explanation.own_set(), set);
/// # Ok(())
/// # }
/// ```
///
/// Where a folder applies, ask about the folder next, and so on upward. What all the own sets share is
/// the permission set:
///
/// ```
/// use dacm::{Explanation, Item, Privileges, Refusal, Role, Subject};
/// # use dacm::{Capacities, Flags, Kind};
///
/// /// Every explanation that counts, from the item up to the last folder that applies.
/// fn explain_all(
///     image: &[u8],
///     subject: Subject,
///     role: Role,
///     item: Item,
/// ) -> Result<Vec<Explanation>, Refusal> {
///     let mut explanations = vec![dacm::explain(image, subject, role, item)?];
///     while let Some(folder) = explanations[explanations.len() - 1].folder {
///         explanations.push(dacm::explain(image, subject, role, folder)?);
///     }
///     Ok(explanations)
/// }
///
/// # fn main() -> Result<(), Refusal> {
/// # let (custodian, no_role) = (Subject::CUSTODIAN, Role::NONE);
/// # let capacities = Capacities { subjects: 2, grants: 0, lines: 2, items: 5 };
/// # let mut image = capacities.empty_image()?;
/// # let (read, replace) = (Privileges::READ, Privileges::REPLACE);
/// # let fitter = dacm::define_subject(&mut image, custodian, no_role, custodian, read | replace)?;
/// # let (none, is_list) = (Item::NONE, Flags::IS_LIST);
/// # let guests = dacm::create_item(&mut image, custodian, no_role, none, is_list, none)?;
/// # let fitters = dacm::create_item(&mut image, custodian, no_role, none, is_list, none)?;
/// # let everyone = Kind::EVERYONE;
/// # dacm::set_line(&mut image, custodian, no_role, guests, everyone, custodian, read)?;
/// # dacm::set_line(&mut image, custodian, no_role, fitters, everyone, custodian, read | replace)?;
/// # let applies = Flags::FOLDER_APPLIES;
/// # let hall = dacm::create_item(&mut image, custodian, no_role, guests, Flags::NONE, none)?;
/// # let files = dacm::create_item(&mut image, custodian, no_role, fitters, applies, hall)?;
/// # let table = dacm::create_item(&mut image, custodian, no_role, fitters, applies, files)?;
/// // Why may the fitter not replace the table, which is among the hall's files? Its own set has that.
/// let explanations = explain_all(&image, fitter, no_role, table)?;
/// let own_sets: Vec<String> = explanations.iter().map(|one| one.own_set().to_string()).collect();
/// assert_eq!(own_sets, ["read, replace", "read, replace", "read"]);
/// assert_eq!(explanations[1].folder, Some(hall));
///
/// let shared = explanations.iter().fold(Privileges::ALL, |set, one| set & one.own_set());
/// assert_eq!(shared, dacm::permission_set(&image, fitter, no_role, table)?);
/// # Ok(())
/// # }
/// ```
pub fn explain(
    image: &[u8],
    subject: Subject,
    role: Role,
    item: Item,
) -> Result<Explanation, Refusal> {
    ffi::explain(image, subject, role, item).result()
}

/// How many subjects have each privilege in their [`permission_set`] on an item, without claiming a
/// role. The count for position n is at index n.
///
/// The custodian has every privilege and is counted, so no count is 0.
///
/// ```
/// use dacm::{Capacities, Flags, Item, Kind, Privileges, Refusal, Role, Subject};
///
/// # fn main() -> Result<(), Refusal> {
/// # let (custodian, no_role) = (Subject::CUSTODIAN, Role::NONE);
/// # let capacities = Capacities { subjects: 3, grants: 0, lines: 2, items: 2 };
/// # let mut image = capacities.empty_image()?;
/// // A fitter and a visitor, and a table that the line for everyone lets them read and replace.
/// let (read, both) = (Privileges::READ, Privileges::READ | Privileges::REPLACE);
/// dacm::define_subject(&mut image, custodian, no_role, custodian, both)?;
/// dacm::define_subject(&mut image, custodian, no_role, custodian, read)?;
/// let (is_list, plain, none) = (Flags::IS_LIST, Flags::NONE, Item::NONE);
/// let list = dacm::create_item(&mut image, custodian, no_role, none, is_list, none)?;
/// dacm::set_line(&mut image, custodian, no_role, list, Kind::EVERYONE, custodian, both)?;
/// let table = dacm::create_item(&mut image, custodian, no_role, list, plain, none)?;
///
/// // How many can replace it? The custodian and the fitter: the visitor may not replace at all.
/// let counts = dacm::count_holders(&image, table)?;
/// assert_eq!(counts[0], 3, "READ is position 0");
/// assert_eq!(counts[1], 2, "REPLACE is position 1");
/// assert_eq!(counts[2..], [1; 30], "the custodian alone");
///
/// // What somebody other than the custodian holds too: 3 can read, 2 can replace.
/// for (position, count) in counts.into_iter().enumerate().filter(|(_, count)| *count > 1) {
///     println!("{count} can {}", Privileges(1 << position));
/// }
/// # Ok(())
/// # }
/// ```
pub fn count_holders(image: &[u8], item: Item) -> Result<[u32; Privileges::POSITIONS], Refusal> {
    let mut counts = [0; Privileges::POSITIONS];
    ffi::count_holders(image, item, &mut counts).done()?;
    Ok(counts)
}

/// How many lines a list has.
pub fn list_count(image: &[u8], list: Item) -> Result<u32, Refusal> {
    ffi::list_count(image, list).result()
}

/// The lines of a list: the slice of the image that holds them, not a copy.
///
/// A line is 16 bytes, four fields of 32 bits, little-endian: list, kind, subject, privileges. For a
/// list without lines it is the empty slice at offset 0. [`Tables::lines_of`](crate::Tables::lines_of)
/// has the lines as rows.
pub fn lines_of(image: &[u8], list: Item) -> Result<&[u8], Refusal> {
    let bytes = list_count(image, list)? as usize * LineRow::BYTES;
    let start = ffi::list_start(image, list);
    Ok(&image[start..start + bytes])
}

/// The lowest subject other than the custodian that may edit a list without claiming a role: whom to
/// write to about the list. [`Refusal::NoEditor`] where there is none.
///
/// ```
/// use dacm::{Capacities, Flags, Item, Kind, Privileges, Refusal, Role, Subject};
///
/// # fn main() -> Result<(), Refusal> {
/// # let (custodian, no_role) = (Subject::CUSTODIAN, Role::NONE);
/// # let capacities = Capacities { subjects: 3, grants: 0, lines: 2, items: 1 };
/// # let mut image = capacities.empty_image()?;
/// let edit = Privileges::EDIT_LIST;
/// let engineer = dacm::define_subject(&mut image, custodian, no_role, custodian, edit)?;
/// let deputy = dacm::define_subject(&mut image, custodian, no_role, custodian, edit)?;
/// let (is_list, none) = (Flags::IS_LIST, Item::NONE);
/// let list = dacm::create_item(&mut image, custodian, no_role, none, is_list, none)?;
/// dacm::bind(&mut image, custodian, list, list)?;
/// assert_eq!(dacm::find_editor(&image, list), Err(Refusal::NoEditor));
///
/// dacm::set_line(&mut image, custodian, no_role, list, Kind::ITSELF, deputy, edit)?;
/// assert_eq!(dacm::find_editor(&image, list)?, deputy);
///
/// // The engineer was defined first, so its number is lower.
/// dacm::set_line(&mut image, custodian, no_role, list, Kind::ITSELF, engineer, edit)?;
/// assert_eq!(dacm::find_editor(&image, list)?, engineer);
/// # Ok(())
/// # }
/// ```
pub fn find_editor(image: &[u8], list: Item) -> Result<Subject, Refusal> {
    ffi::find_editor(image, list).result().map(Subject)
}

/// How many steps lead from a subject up to the root of a tree, from each subject to its parent: 0 for
/// the root itself, 1 for those directly below it. `None` for a subject outside of the tree.
///
/// There is no caller. [`Refusal::UnknownSubject`] where one of the two is not in use.
///
/// ```
/// use dacm::{Capacities, Privileges, Refusal, Role, Subject};
///
/// # fn main() -> Result<(), Refusal> {
/// # let (custodian, no_role, none) = (Subject::CUSTODIAN, Role::NONE, Privileges::NONE);
/// # let capacities = Capacities { subjects: 4, grants: 0, lines: 0, items: 0 };
/// # let mut image = capacities.empty_image()?;
/// let chain = dacm::define_subject(&mut image, custodian, no_role, custodian, none)?;
/// let hall = dacm::define_subject(&mut image, custodian, no_role, chain, none)?;
/// let technician = dacm::define_subject(&mut image, custodian, no_role, hall, none)?;
///
/// assert_eq!(dacm::steps_up(&image, technician, chain)?, Some(2));
/// assert_eq!(dacm::steps_up(&image, chain, chain)?, Some(0));
/// assert_eq!(dacm::steps_up(&image, chain, technician)?, None);
/// # Ok(())
/// # }
/// ```
pub fn steps_up(image: &[u8], subject: Subject, root: Subject) -> Result<Option<u32>, Refusal> {
    ffi::steps_up(image, subject, root).result().map(ffi::steps)
}
