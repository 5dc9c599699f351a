//! The calls that change the tables. A refused one leaves every byte as it was.

use crate::{ffi, Flags, Item, Kind, Privileges, Refusal, Role, Subject};

/// Defines a subject below a parent and answers its number.
///
/// The caller needs [`DEFINE_SUBJECTS`](Privileges::DEFINE_SUBJECTS) in its operation set under the
/// role, and the parent must be in the caller's tree or in the tree of the subject that granted the
/// role. Of the given privileges the new subject gets those that the caller's own row has too; what
/// the caller has only by a role is not passed on.
pub fn define_subject(
    image: &mut [u8],
    caller: Subject,
    role: Role,
    parent: Subject,
    privileges: Privileges,
) -> Result<Subject, Refusal> {
    ffi::define_subject(image, caller, role, parent, privileges)
        .result()
        .map(Subject)
}

/// Grants a role to a receiver, over the items whose owners are in the tree of the domain.
///
/// Any subject in use may grant, and the domain must be in its tree. An earlier grant of the same
/// role by the caller to the same receiver is overwritten; one by another grantor is not, and the
/// call is refused.
pub fn set_grant(
    image: &mut [u8],
    caller: Subject,
    receiver: Subject,
    role: Role,
    domain: Subject,
    privileges: Privileges,
) -> Result<(), Refusal> {
    ffi::set_grant(image, caller, receiver, role, domain, privileges).done()
}

/// Takes a role back from its receiver. Only the grantor and the custodian may do this.
pub fn remove_grant(
    image: &mut [u8],
    caller: Subject,
    receiver: Subject,
    role: Role,
) -> Result<(), Refusal> {
    ffi::remove_grant(image, caller, receiver, role).done()
}

/// Sets a line of a list. The list's line of the same kind for the same subject is overwritten.
///
/// The caller needs [`EDIT_LIST`](Privileges::EDIT_LIST) in its permission set on the list under the
/// role.
pub fn set_line(
    image: &mut [u8],
    caller: Subject,
    role: Role,
    list: Item,
    kind: Kind,
    subject: Subject,
    privileges: Privileges,
) -> Result<(), Refusal> {
    ffi::set_line(image, caller, role, list, kind, subject, privileges).done()
}

/// Removes a line of a list.
///
/// The caller needs [`EDIT_LIST`](Privileges::EDIT_LIST) in its permission set on the list under the
/// role.
pub fn remove_line(
    image: &mut [u8],
    caller: Subject,
    role: Role,
    list: Item,
    kind: Kind,
    subject: Subject,
) -> Result<(), Refusal> {
    ffi::remove_line(image, caller, role, list, kind, subject).done()
}

/// Creates an item that the caller owns, governed by a list or by [`Item::NONE`], in a folder or in
/// [`Item::NONE`], and answers its number.
///
/// The caller needs [`CREATE_ITEMS`](Privileges::CREATE_ITEMS) in its operation set under the role. It
/// needs no right on the list or on the folder. Any item in use can be a folder, and an item stays in
/// the folder that it was created in.
///
/// The folder has an effect only with the flag [`FOLDER_APPLIES`](Flags::FOLDER_APPLIES): then the
/// permission set on the item has only what the permission set on the folder has too.
///
/// ```
/// use dacm::{Capacities, Flags, Item, Kind, Privileges, Refusal, Role, Subject};
///
/// # fn main() -> Result<(), Refusal> {
/// # let (custodian, no_role) = (Subject::CUSTODIAN, Role::NONE);
/// # let capacities = Capacities { subjects: 2, grants: 0, lines: 2, items: 5 };
/// # let mut image = capacities.empty_image()?;
/// # let (read, both) = (Privileges::READ, Privileges::READ | Privileges::REPLACE);
/// # let fitter = dacm::define_subject(&mut image, custodian, no_role, custodian, both)?;
/// // A list on which everyone may read, and one on which everyone may replace too.
/// let (is_list, none) = (Flags::IS_LIST, Item::NONE);
/// let guests = dacm::create_item(&mut image, custodian, no_role, none, is_list, none)?;
/// let fitters = dacm::create_item(&mut image, custodian, no_role, none, is_list, none)?;
/// dacm::set_line(&mut image, custodian, no_role, guests, Kind::EVERYONE, custodian, read)?;
/// dacm::set_line(&mut image, custodian, no_role, fitters, Kind::EVERYONE, custodian, both)?;
///
/// // A hall under the first list. Its table and its photograph are under the second list and in the
/// // hall's folder, which applies to the table alone.
/// let plain = Flags::NONE;
/// let hall = dacm::create_item(&mut image, custodian, no_role, guests, plain, none)?;
/// let applies = Flags::FOLDER_APPLIES;
/// let table = dacm::create_item(&mut image, custodian, no_role, fitters, applies, hall)?;
/// let photograph = dacm::create_item(&mut image, custodian, no_role, fitters, plain, hall)?;
/// assert_eq!(dacm::permission_set(&image, fitter, no_role, table)?, read);
/// assert_eq!(dacm::permission_set(&image, fitter, no_role, photograph)?, both);
///
/// // What is allowed on the hall is allowed on its table.
/// dacm::bind(&mut image, custodian, hall, fitters)?;
/// assert_eq!(dacm::permission_set(&image, fitter, no_role, table)?, both);
/// # Ok(())
/// # }
/// ```
pub fn create_item(
    image: &mut [u8],
    caller: Subject,
    role: Role,
    list: Item,
    flags: Flags,
    folder: Item,
) -> Result<Item, Refusal> {
    ffi::create_item(image, caller, role, list, flags, folder)
        .result()
        .map(Item)
}

/// Binds an item to a list, or to [`Item::NONE`]. The owner may do this while the item is not
/// locked, the custodian always. The item stays in its folder.
pub fn bind(image: &mut [u8], caller: Subject, item: Item, list: Item) -> Result<(), Refusal> {
    ffi::bind(image, caller, item, list).done()
}

/// Hands an item over to a new owner. Only the custodian may do this. The item stays in its folder.
pub fn hand_over(
    image: &mut [u8],
    caller: Subject,
    item: Item,
    owner: Subject,
) -> Result<(), Refusal> {
    ffi::hand_over(image, caller, item, owner).done()
}
