//! Questions 1 to 7, with which every call begins. Most calls take most of their time here.
//!
//! Each table is passed once. Which rule a row breaks does not matter, so a pass gathers what it can
//! and looks at it only at the end; it has few branches. The passes are functions of their own, never
//! inlined, so that each loop has all registers to itself.

use super::rows::{
    run_key, Grant, GrantRow, Item, ItemRow, Line, LineRow, Row, Subject, SubjectRow, EVERYONE,
    FOLDER_APPLIES, GROUP, HIGHEST_FLAGS, IS_LIST, ITSELF, NO_FOLDER, NO_LIST, NO_ROLE,
};
use super::tables::{item_index, Tables, HEADER_BYTES};
use super::tree::{Climbs, Tree};
use super::{Asked, Question};

const LONGEST: usize = 65_536;

/// Unused rows that are looked at in one step, without a branch for each.
const STEP: usize = 8;

/// The tables of an accepted image. Always inlined: there is one use in each call, and small images
/// would pay for passing the tables through memory.
#[inline(always)]
pub fn open(image: &[u8]) -> Asked<Tables<'_>> {
    Question::Length.ask((HEADER_BYTES..=LONGEST).contains(&image.len()))?;
    let tables = Tables::laid_out(image).ok_or(Question::Layout)?;
    let (subjects, items) = (tables.subjects.used, tables.items.used);
    let count = tables.subject_count();
    Question::Subjects.ask(subjects_hold(subjects))?;
    Question::Items.ask(items_hold(items, count))?;
    Question::Lines.ask(lines_hold(tables.lines.used, items, count))?;
    Question::Grants.ask(grants_hold(tables.grants.used, subjects))?;
    Question::UnusedRows.ask(unused_are_zero(&tables))?;
    Ok(tables)
}

/// What a subject has beyond its creator is gathered from all subjects.
#[inline(never)]
fn subjects_hold(subjects: &[SubjectRow]) -> bool {
    const CUSTODIANS_ROW: SubjectRow = [[0; 4], [0xff; 4], [0; 4]];
    if subjects[0] != CUSTODIANS_ROW {
        return false;
    }
    let mut beyond_creators = 0;
    for number in 1..subjects.len() as u32 {
        let subject = Subject::of(&subjects[number as usize]);
        if subject.parent >= number || subject.creator >= number {
            return false;
        }
        let creator = Subject::of(&subjects[subject.creator as usize]);
        beyond_creators |= subject.privileges & !creator.privileges;
    }
    beyond_creators == 0
}

/// Flags are gathered: all bits that some item has, those that some item without a folder has, and those
/// that every item named as list has. So are the differences between each number and the folder, as
/// between neighbouring lines below.
#[inline(never)]
fn items_hold(items: &[ItemRow], subjects: u32) -> bool {
    let mut flags_of_some_item = 0;
    let mut flags_without_folder = 0;
    let mut flags_of_every_list = IS_LIST;
    let mut differences = 0;
    for (number, row) in (1..).zip(items) {
        let item = Item::of(row);
        if item.owner >= subjects {
            return false;
        }
        differences |= (number as u64).wrapping_sub(item.folder as u64 + 1);
        flags_of_some_item |= item.flags;
        flags_without_folder |= if item.folder == NO_FOLDER {
            item.flags
        } else {
            0
        };
        match items.get(item_index(item.list)) {
            Some(list) => flags_of_every_list &= Item::of(list).flags,
            None if item.list == NO_LIST => (),
            None => return false,
        }
    }
    let folders_are_lower = differences >> 63 == 0;
    let applied_are_there = flags_without_folder & FOLDER_APPLIES == 0;
    let flags_hold = flags_of_some_item <= HIGHEST_FLAGS && flags_of_every_list == IS_LIST;
    folders_are_lower && applied_are_there && flags_hold
}

/// Lines of one list and kind stand together, in a run. So the list and the kind are looked at only
/// where a run begins. Within a run the subjects ascend, so only the last one can be too high. The
/// differences of neighbours are gathered: one below zero has the highest of 64 bits.
#[inline(never)]
fn lines_hold(lines: &[LineRow], items: &[ItemRow], subjects: u32) -> bool {
    // As if there were a line of list 0 before the first. No other line of list 0 can follow: it would
    // need a subject above 0 and below 1.
    let (mut run, mut last, mut bound) = (run_key(NO_LIST, ITSELF), 0, 1);
    let mut differences = 0;
    for row in lines {
        let line = Line::of(row);
        if line.run() == run {
            differences |= (line.subject as u64).wrapping_sub(last as u64 + 1);
        } else {
            if line.run() < run || last >= bound || !may_begin_run(line, items) {
                return false;
            }
            run = line.run();
            bound = if line.kind <= GROUP { subjects } else { 1 };
        }
        last = line.subject;
    }
    let ascending = differences >> 63 == 0;
    ascending && last < bound
}

fn may_begin_run(line: Line, items: &[ItemRow]) -> bool {
    let list = items.get(item_index(line.list));
    line.kind <= EVERYONE && list.is_some_and(|row| Item::of(row).is_list())
}

#[inline(never)]
fn grants_hold(grants: &[GrantRow], subjects: &[SubjectRow]) -> bool {
    let mut trees = Climbs::new(Tree::of(subjects));
    let mut last_key = 0;
    for row in grants {
        let grant = Grant::of(row);
        let highest = grant.receiver.max(grant.grantor).max(grant.domain);
        let in_order = last_key < grant.key() && grant.role != NO_ROLE;
        if !in_order || highest as usize >= subjects.len() {
            return false;
        }
        last_key = grant.key();
        if !trees.is_in(grant.domain, grant.grantor) {
            return false;
        }
    }
    true
}

#[inline]
fn unused_are_zero(tables: &Tables) -> bool {
    are_zero(tables.subjects.unused)
        && are_zero(tables.grants.unused)
        && are_zero(tables.lines.unused)
        && are_zero(tables.items.unused)
}

/// In wide steps, and row by row where less than such a step is left.
#[inline]
fn are_zero<const FIELDS: usize>(rows: &[Row<FIELDS>]) -> bool {
    let (steps, rest) = rows.as_chunks::<STEP>();
    steps.iter().all(|step| is_zero(step.as_flattened())) && rest.iter().all(|row| is_zero(row))
}

#[inline]
fn is_zero(fields: &[[u8; 4]]) -> bool {
    let fields = fields.iter().map(|field| u32::from_le_bytes(*field));
    fields.fold(0, |bits, field| bits | field) == 0
}
