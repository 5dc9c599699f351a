//! The calls that change the image. Each writes only after its last question, so a refused call
//! leaves every byte as it was.

use super::opening::open;
use super::permission::{operation_set, permission_set};
use super::rows::{
    line_key, Grant, Item, Line, Subject, CREATE_ITEMS, CUSTODIAN, DEFINE_SUBJECTS, EDIT_LIST,
    EVERYONE, FOLDER_APPLIES, GROUP, HIGHEST_FLAGS, NO_FOLDER, NO_LIST, NO_ROLE,
};
use super::tables::{item_index, Tables};
use super::writing::{GRANTS, ITEMS, LINES, SUBJECTS};
use super::{Answer, Asked, Question};

/// A role may give the right to define, and its grantor's tree counts. But what the new subject gets
/// is cut by the caller's own row. The custodian's has all, so there nothing is cut.
pub fn define_subject(
    image: &mut [u8],
    caller: u32,
    role: u32,
    parent: u32,
    privileges: u32,
) -> Answer {
    Answer::to(|| {
        let tables = open(image)?;
        Question::Caller.ask(tables.has_subject(caller))?;
        Question::OtherSubjects.ask(tables.has_subject(parent))?;
        let grant = tables.grant(caller, role);
        let operations = operation_set(&tables, caller, grant);
        Question::Right.ask(operations & DEFINE_SUBJECTS != 0)?;
        let tree = tables.tree();
        let by_role = || grant.is_some_and(|grant| tree.is_in(parent, grant.grantor));
        Question::Reach.ask(tree.is_in(parent, caller) || by_role())?;
        Question::FreeRow.ask(tables.subjects.has_free_row())?;
        let number = tables.subject_count();
        let subject = Subject {
            parent,
            privileges: privileges & tables.subject(caller).privileges,
            creator: caller,
        };
        SUBJECTS.insert(image, number as usize, subject.row());
        Ok(number)
    })
}

/// The privileges are stored as given. What the grantor lacks is cut whenever the grant is used.
pub fn set_grant(
    image: &mut [u8],
    caller: u32,
    receiver: u32,
    role: u32,
    domain: u32,
    privileges: u32,
) -> Answer {
    Answer::to(|| {
        let tables = open(image)?;
        Question::Caller.ask(tables.has_subject(caller))?;
        let others = tables.has_subject(receiver) && tables.has_subject(domain);
        Question::OtherSubjects.ask(others)?;
        Question::Range.ask(role != NO_ROLE)?;
        Question::Reach.ask(tables.tree().is_in(domain, caller))?;
        let row = Grant {
            receiver,
            role,
            grantor: caller,
            domain,
            privileges,
        }
        .row();
        match tables.find_grant(receiver, role) {
            Ok(index) => {
                Question::Grantor.ask(grantor_at(&tables, index) == caller)?;
                GRANTS.overwrite(image, index, row);
            }
            Err(index) => {
                Question::FreeRow.ask(tables.grants.has_free_row())?;
                GRANTS.insert(image, index, row);
            }
        }
        Ok(0)
    })
}

pub fn remove_grant(image: &mut [u8], caller: u32, receiver: u32, role: u32) -> Answer {
    Answer::to(|| {
        let tables = open(image)?;
        Question::Caller.ask(tables.has_subject(caller))?;
        Question::OtherSubjects.ask(tables.has_subject(receiver))?;
        Question::Range.ask(role != NO_ROLE)?;
        let found = tables.find_grant(receiver, role);
        let index = found.map_err(|_| Question::RowThere)?;
        let may = caller == CUSTODIAN || caller == grantor_at(&tables, index);
        Question::Grantor.ask(may)?;
        GRANTS.remove(image, index);
        Ok(0)
    })
}

fn grantor_at(tables: &Tables, index: usize) -> u32 {
    Grant::of(&tables.grants.used[index]).grantor
}

pub fn set_line(
    image: &mut [u8],
    caller: u32,
    role: u32,
    list: u32,
    kind: u32,
    subject: u32,
    privileges: u32,
) -> Answer {
    Answer::to(|| {
        let tables = open(image)?;
        ask_about_line(&tables, caller, role, list, kind, subject)?;
        let line = Line {
            list,
            kind,
            subject,
            privileges,
        };
        match tables.lines.find_line(line.key()) {
            Ok(index) => LINES.overwrite(image, index, line.row()),
            Err(index) => {
                Question::FreeRow.ask(tables.lines.has_free_row())?;
                LINES.insert(image, index, line.row());
            }
        }
        Ok(0)
    })
}

pub fn remove_line(
    image: &mut [u8],
    caller: u32,
    role: u32,
    list: u32,
    kind: u32,
    subject: u32,
) -> Answer {
    Answer::to(|| {
        let tables = open(image)?;
        ask_about_line(&tables, caller, role, list, kind, subject)?;
        let found = tables.lines.find_line(line_key(list, kind, subject));
        let index = found.map_err(|_| Question::RowThere)?;
        LINES.remove(image, index);
        Ok(0)
    })
}

/// What set line and remove line are both asked. Afterwards the line's key is the right one.
fn ask_about_line(
    tables: &Tables,
    caller: u32,
    role: u32,
    list: u32,
    kind: u32,
    subject: u32,
) -> Asked<()> {
    Question::Caller.ask(tables.has_subject(caller))?;
    Question::OtherSubjects.ask(tables.has_subject(subject))?;
    let list = tables.list(list).ok_or(Question::List)?;
    let names_somebody = kind <= GROUP;
    Question::Range.ask(names_somebody || kind <= EVERYONE && subject == 0)?;
    let permissions = permission_set(tables, caller, role, list);
    Question::Right.ask(permissions & EDIT_LIST != 0)
}

/// Nobody needs a right on the folder.
pub fn create_item(
    image: &mut [u8],
    caller: u32,
    role: u32,
    list: u32,
    flags: u32,
    folder: u32,
) -> Answer {
    Answer::to(|| {
        let tables = open(image)?;
        Question::Caller.ask(tables.has_subject(caller))?;
        let in_no_folder = folder == NO_FOLDER;
        Question::Item.ask(in_no_folder || tables.item(folder).is_some())?;
        Question::List.ask(is_list_or_none(&tables, list))?;
        let none_applies = flags & FOLDER_APPLIES != 0 && in_no_folder;
        Question::Range.ask(flags <= HIGHEST_FLAGS && !none_applies)?;
        let grant = tables.grant(caller, role);
        let operations = operation_set(&tables, caller, grant);
        Question::Right.ask(operations & CREATE_ITEMS != 0)?;
        Question::FreeRow.ask(tables.items.has_free_row())?;
        let index = tables.items.used.len();
        let item = Item {
            owner: caller,
            list,
            flags,
            folder,
        };
        ITEMS.insert(image, index, item.row());
        Ok(index as u32 + 1)
    })
}

/// Locked or not, the custodian may bind. Nobody needs a right on the list.
pub fn bind(image: &mut [u8], caller: u32, item: u32, list: u32) -> Answer {
    Answer::to(|| {
        let tables = open(image)?;
        Question::Caller.ask(tables.has_subject(caller))?;
        let before = tables.item(item).ok_or(Question::Item)?;
        Question::List.ask(is_list_or_none(&tables, list))?;
        let as_owner = caller == before.owner && !before.is_locked();
        Question::Right.ask(as_owner || caller == CUSTODIAN)?;
        ITEMS.overwrite(image, item_index(item), Item { list, ..before }.row());
        Ok(0)
    })
}

pub fn hand_over(image: &mut [u8], caller: u32, item: u32, owner: u32) -> Answer {
    Answer::to(|| {
        let tables = open(image)?;
        Question::Caller.ask(tables.has_subject(caller))?;
        Question::OtherSubjects.ask(tables.has_subject(owner))?;
        let before = tables.item(item).ok_or(Question::Item)?;
        Question::Right.ask(caller == CUSTODIAN)?;
        ITEMS.overwrite(image, item_index(item), Item { owner, ..before }.row());
        Ok(0)
    })
}

fn is_list_or_none(tables: &Tables, list: u32) -> bool {
    list == NO_LIST || tables.list(list).is_some()
}
