//! The calls that only ask.

use super::image::Image;
use super::permission::{self, EDIT_LIST};
use super::rows::{NO_ROLE, POSITIONS};
use super::table::LINES;
use super::{answer, ask, Answer, Explanation, Refused};
use std::ops::Range;

pub fn check(image: &[u8]) -> Answer {
    answer(|| {
        Image::open(image)?;
        Ok(0)
    })
}

pub fn operation_set(image: &[u8], subject: u32, role: u32) -> Answer {
    answer(|| {
        let image = Image::open(image)?;
        ask(10, image.has_subject(subject))?;
        let grant = image.grant(subject, role);
        Ok(permission::operation_set(&image, subject, grant))
    })
}

pub fn permission_set(image: &[u8], subject: u32, role: u32, item: u32) -> Answer {
    answer(|| {
        let image = Image::open(image)?;
        ask(10, image.has_subject(subject))?;
        let item = image.item(item).ok_or(Refused(12))?;
        Ok(permission::permission_set(&image, subject, role, item))
    })
}

pub fn explain(image: &[u8], subject: u32, role: u32, item: u32) -> Explanation {
    let explained = || {
        let image = Image::open(image)?;
        ask(10, image.has_subject(subject))?;
        let item = image.item(item).ok_or(Refused(12))?;
        Ok(permission::explain(&image, subject, role, item))
    };
    explained().unwrap_or_else(|Refused(number)| Explanation {
        number,
        ..Explanation::default()
    })
}

/// Entry n of the counts receives how many subjects hold the privilege at position n
/// on the item without a role. The custodian is one of them.
pub fn count_holders(image: &[u8], item: u32, counts: &mut [u32]) -> Answer {
    answer(|| {
        let image = Image::open(image)?;
        let item = image.item(item).ok_or(Refused(12))?;
        ask(21, counts.len() == POSITIONS)?;
        counts.fill(0);
        for subject in 0..image.subject_count() {
            let set = permission::permission_set(&image, subject, NO_ROLE, item);
            for (position, count) in counts.iter_mut().enumerate() {
                *count += set >> position & 1;
            }
        }
        Ok(0)
    })
}

/// How many rows the list has.
pub fn list_count(image: &[u8], list: u32) -> Answer {
    answer(|| Ok(list_rows(image, list)?.len() as u32))
}

/// The offset of the list's rows. It is 0 if the call is refused or if the list
/// has no rows.
pub fn list_start(image: &[u8], list: u32) -> usize {
    match list_rows(image, list) {
        Ok(rows) if !rows.is_empty() => LINES.start(image, rows.start),
        _ => 0,
    }
}

fn list_rows(image: &[u8], list: u32) -> Result<Range<usize>, Refused> {
    let image = Image::open(image)?;
    ask(13, image.list(list).is_some())?;
    Ok(image.lines_of(list))
}

/// The lowest subject other than the custodian that may edit the list without a role.
/// The list is taken as an item here: the lines of its own list decide, not its own
/// lines.
pub fn find_editor(image: &[u8], list: u32) -> Answer {
    answer(|| {
        let image = Image::open(image)?;
        let list = image.list(list).ok_or(Refused(13))?;
        let may_edit = |subject: &u32| {
            permission::permission_set(&image, *subject, NO_ROLE, list) & EDIT_LIST != 0
        };
        let mut others = 1..image.subject_count();
        others.find(may_edit).ok_or(Refused(20))
    })
}

/// How many steps the subject is below the root. There is no caller: question 11 is
/// asked of both.
pub fn steps_up(image: &[u8], subject: u32, root: u32) -> Answer {
    answer(|| {
        let image = Image::open(image)?;
        ask(11, image.has_subject(subject))?;
        ask(11, image.has_subject(root))?;
        Ok(permission::steps_number(image.steps_up(subject, root)))
    })
}
