//! The calls that change the image. Each reads through a view until its last
//! question is answered, and only then writes.

use super::image::Image;
use super::permission::{operation_set, permission_set, CREATE_ITEMS, DEFINE_SUBJECTS, EDIT_LIST};
use super::rows::{
    flags_in_range, line_in_range, Grant, Item, Line, Subject, CUSTODIAN, NO_FOLDER, NO_LIST,
    NO_ROLE,
};
use super::table::{GRANTS, ITEMS, LINES, SUBJECTS};
use super::{answer, ask, Answer, Refused};

/// The claimed role may give the right to define, and its grantor's tree counts
/// too. But the new subject's privileges come from the caller's own row alone.
/// The custodian's row has all privileges, so he passes on whatever is given.
pub fn define_subject(
    image: &mut [u8],
    caller: u32,
    role: u32,
    parent: u32,
    privileges: u32,
) -> Answer {
    answer(|| {
        let view = Image::open(image)?;
        ask(10, view.has_subject(caller))?;
        ask(11, view.has_subject(parent))?;
        let grant = view.grant(caller, role);
        ask(
            15,
            operation_set(&view, caller, grant) & DEFINE_SUBJECTS != 0,
        )?;
        ask(
            16,
            view.in_tree(parent, caller)
                || grant.is_some_and(|grant| view.in_tree(parent, grant.grantor)),
        )?;
        ask(19, view.subjects.has_free_row())?;
        let number = view.subject_count();
        let subject = Subject {
            parent,
            privileges: privileges & view.subject(caller).privileges,
            creator: caller,
        };
        SUBJECTS.insert(image, number as usize, subject.bytes());
        Ok(number)
    })
}

/// Any subject in use may grant within its tree. The privileges are stored
/// unchanged. What the grantor lacks is taken off each time the grant is used.
pub fn set_grant(
    image: &mut [u8],
    caller: u32,
    receiver: u32,
    role: u32,
    domain: u32,
    privileges: u32,
) -> Answer {
    answer(|| {
        let view = Image::open(image)?;
        ask(10, view.has_subject(caller))?;
        ask(11, view.has_subject(receiver) && view.has_subject(domain))?;
        ask(14, role != NO_ROLE)?;
        ask(16, view.in_tree(domain, caller))?;
        let grant = Grant {
            receiver,
            role,
            grantor: caller,
            domain,
            privileges,
        };
        match view.find_grant(receiver, role) {
            Ok(row) => {
                // Not even the custodian may overwrite another's grant.
                ask(18, Grant::read(&view.grants.used[row]).grantor == caller)?;
                GRANTS.overwrite(image, row, grant.bytes());
            }
            Err(row) => {
                ask(19, view.grants.has_free_row())?;
                GRANTS.insert(image, row, grant.bytes());
            }
        }
        Ok(0)
    })
}

pub fn remove_grant(image: &mut [u8], caller: u32, receiver: u32, role: u32) -> Answer {
    answer(|| {
        let view = Image::open(image)?;
        ask(10, view.has_subject(caller))?;
        ask(11, view.has_subject(receiver))?;
        ask(14, role != NO_ROLE)?;
        let row = view.find_grant(receiver, role).map_err(|_| Refused(17))?;
        let grantor = Grant::read(&view.grants.used[row]).grantor;
        ask(18, caller == grantor || caller == CUSTODIAN)?;
        GRANTS.remove(image, row);
        Ok(0)
    })
}

pub fn set_line(
    image: &mut [u8],
    caller: u32,
    role: u32,
    list: u32,
    kind: u32,
    subject: u32,
    privileges: u32,
) -> Answer {
    answer(|| {
        let view = Image::open(image)?;
        ask_for_line(&view, caller, role, list, kind, subject)?;
        let line = Line {
            list,
            kind,
            subject,
            privileges,
        };
        match view.lines.find_line(list, kind, subject) {
            Ok(row) => LINES.overwrite(image, row, line.bytes()),
            Err(row) => {
                ask(19, view.lines.has_free_row())?;
                LINES.insert(image, row, line.bytes());
            }
        }
        Ok(0)
    })
}

pub fn remove_line(
    image: &mut [u8],
    caller: u32,
    role: u32,
    list: u32,
    kind: u32,
    subject: u32,
) -> Answer {
    answer(|| {
        let view = Image::open(image)?;
        ask_for_line(&view, caller, role, list, kind, subject)?;
        let row = view
            .lines
            .find_line(list, kind, subject)
            .map_err(|_| Refused(17))?;
        LINES.remove(image, row);
        Ok(0)
    })
}

/// Questions 10 to 15 of set line and remove line. Question 11 is asked for every
/// kind, also for those whose subject must be 0 by question 14.
fn ask_for_line(
    view: &Image,
    caller: u32,
    role: u32,
    list: u32,
    kind: u32,
    subject: u32,
) -> Result<(), Refused> {
    ask(10, view.has_subject(caller))?;
    ask(11, view.has_subject(subject))?;
    let list = view.list(list).ok_or(Refused(13))?;
    ask(14, line_in_range(kind, subject))?;
    ask(
        15,
        permission_set(view, caller, role, list) & EDIT_LIST != 0,
    )
}

/// The caller needs no right on the folder. The folder is in use, so the new item's
/// number is higher.
pub fn create_item(
    image: &mut [u8],
    caller: u32,
    role: u32,
    list: u32,
    flags: u32,
    folder: u32,
) -> Answer {
    answer(|| {
        let view = Image::open(image)?;
        ask(10, view.has_subject(caller))?;
        ask(12, folder == NO_FOLDER || view.item(folder).is_some())?;
        ask(13, list == NO_LIST || view.list(list).is_some())?;
        ask(14, flags_in_range(flags, folder))?;
        let grant = view.grant(caller, role);
        ask(15, operation_set(&view, caller, grant) & CREATE_ITEMS != 0)?;
        ask(19, view.items.has_free_row())?;
        let row = view.item_count();
        let item = Item {
            owner: caller,
            list,
            flags,
            folder,
        };
        ITEMS.insert(image, row as usize, item.bytes());
        Ok(row + 1)
    })
}

/// The caller needs no right on the list. The owner may bind the item unless it
/// is locked; the custodian may in any case.
pub fn bind(image: &mut [u8], caller: u32, item: u32, list: u32) -> Answer {
    answer(|| {
        let view = Image::open(image)?;
        ask(10, view.has_subject(caller))?;
        let bound = view.item(item).ok_or(Refused(12))?;
        ask(13, list == NO_LIST || view.list(list).is_some())?;
        let owns_unlocked = caller == bound.owner && !bound.is_locked();
        ask(15, owns_unlocked || caller == CUSTODIAN)?;
        write_item(image, item, Item { list, ..bound });
        Ok(0)
    })
}

pub fn hand_over(image: &mut [u8], caller: u32, item: u32, owner: u32) -> Answer {
    answer(|| {
        let view = Image::open(image)?;
        ask(10, view.has_subject(caller))?;
        ask(11, view.has_subject(owner))?;
        let handed = view.item(item).ok_or(Refused(12))?;
        ask(15, caller == CUSTODIAN)?;
        write_item(image, item, Item { owner, ..handed });
        Ok(0)
    })
}

/// Writes the row of an item in use. Item numbers start at 1, indexes at 0.
fn write_item(image: &mut [u8], number: u32, item: Item) {
    ITEMS.overwrite(image, number as usize - 1, item.bytes());
}
