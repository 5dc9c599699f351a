//! The calls that ask.

use super::editor;
use super::holders;
use super::opening::open;
use super::permission;
use super::rows::{LineRow, OUTSIDE};
use super::writing::LINES;
use super::{Answer, Asked, Explanation, Question};

pub fn check(image: &[u8]) -> Answer {
    Answer::to(|| open(image).map(|_| 0))
}

pub fn operation_set(image: &[u8], subject: u32, role: u32) -> Answer {
    Answer::to(|| {
        let tables = open(image)?;
        Question::Caller.ask(tables.has_subject(subject))?;
        let grant = tables.grant(subject, role);
        Ok(permission::operation_set(&tables, subject, grant))
    })
}

pub fn permission_set(image: &[u8], subject: u32, role: u32, item: u32) -> Answer {
    Answer::to(|| {
        let tables = open(image)?;
        Question::Caller.ask(tables.has_subject(subject))?;
        let item = tables.item(item).ok_or(Question::Item)?;
        Ok(permission::permission_set(&tables, subject, role, item))
    })
}

pub fn explain(image: &[u8], subject: u32, role: u32, item: u32) -> Explanation {
    Explanation::to(|| {
        let tables = open(image)?;
        Question::Caller.ask(tables.has_subject(subject))?;
        let item = tables.item(item).ok_or(Question::Item)?;
        Ok(permission::explain(&tables, subject, role, item))
    })
}

/// How many subjects hold each privilege on the item, without a role.
pub fn count_holders(image: &[u8], item: u32, counts: &mut [u32]) -> Answer {
    Answer::to(|| {
        let tables = open(image)?;
        let item = tables.item(item).ok_or(Question::Item)?;
        let counts = counts.try_into().map_err(|_| Question::Counts)?;
        holders::count(&tables, item, counts);
        Ok(0)
    })
}

/// How many lines the list has.
pub fn list_count(image: &[u8], list: u32) -> Answer {
    Answer::to(|| {
        let (_, lines) = lines_of(image, list)?;
        Ok(lines.len() as u32)
    })
}

/// The offset of the list's lines: 0 if it has none, and if the call is refused.
pub fn list_start(image: &[u8], list: u32) -> usize {
    match lines_of(image, list) {
        Ok((start, [_, ..])) => start,
        _ => 0,
    }
}

/// The offset of the list's lines, and the lines.
fn lines_of(image: &[u8], list: u32) -> Asked<(usize, &[LineRow])> {
    let tables = open(image)?;
    tables.list(list).ok_or(Question::List)?;
    let (index, lines) = tables.lines_of(list);
    Ok((LINES.offset(image, index), lines))
}

/// The lowest subject other than the custodian that may edit the list, without a role.
pub fn find_editor(image: &[u8], list: u32) -> Answer {
    Answer::to(|| {
        let tables = open(image)?;
        let list = tables.list(list).ok_or(Question::List)?;
        editor::lowest(&tables, list).ok_or(Question::Editor)
    })
}

/// How many steps up from the subject to the root.
pub fn steps_up(image: &[u8], subject: u32, root: u32) -> Answer {
    Answer::to(|| {
        let tables = open(image)?;
        let both = tables.has_subject(subject) && tables.has_subject(root);
        Question::OtherSubjects.ask(both)?;
        Ok(tables.tree().steps_up(subject, root).unwrap_or(OUTSIDE))
    })
}
