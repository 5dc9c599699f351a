//! How many subjects hold each privilege on an item. What the lines give is worked out for all
//! subjects together, from the top of the tree, so that nobody climbs it. Where folders apply, it is
//! worked out once for each list that is met on the way up, and not for each folder.

use super::list::List;
use super::rows::{Item, Line, LineRow, Subject, ALL, POSITIONS};
use super::tables::Tables;
use super::tree::Tree;
use std::iter::successors;
use std::ops::Range;

/// As many sets as a byte can count.
const MOST_IN_BYTES: usize = u8::MAX as usize;

/// Entry n receives the count for position n.
pub fn count(tables: &Tables, item: Item, counts: &mut [u32; POSITIONS]) {
    let (given, everyone) = if tables.folder_of(item).is_some() {
        (given_with_folders(tables, item), 0)
    } else {
        let list = tables.list_of(item);
        let mut given = given_by_lines(tables.tree(), &list);
        if let Some(privileges) = list.owner {
            given[item.owner as usize] = privileges;
        }
        (given, list.everyone.unwrap_or(0))
    };
    let set = |(row, given): (_, &u32)| Subject::of(row).privileges & (given | everyone);
    // The custodian holds all.
    *counts = [1; POSITIONS];
    let subjects = tables.subjects.used[1..].chunks(MOST_IN_BYTES);
    for (rows, given) in subjects.zip(given[1..].chunks(MOST_IN_BYTES)) {
        add(counts, count_in_bytes(rows.iter().zip(given).map(set)));
    }
}

/// The items under one list on a way up.
#[derive(Clone, Copy)]
struct Met {
    /// The owner of the first of them.
    owner: u32,
    is_only_owner: bool,
    /// What the list gives to an owner on its item. None until the lines of the list have been taken.
    to_owners: Option<u32>,
}

/// What the lines give each subject both on the item and on every folder that applies, with the lines
/// for everyone. The custodian's entry says nothing: it has all without lines.
#[cold]
pub fn given_with_folders(tables: &Tables, item: Item) -> Vec<u32> {
    let way_up = || successors(Some(item), |item| tables.folder_of(*item));
    let mut lists: Vec<Option<Met>> = vec![None; tables.items.used.len() + 1];
    for item in way_up() {
        let met = lists[item.list as usize].get_or_insert(Met {
            owner: item.owner,
            is_only_owner: true,
            to_owners: None,
        });
        met.is_only_owner &= met.owner == item.owner;
    }
    let mut shared = vec![ALL; tables.subjects.used.len()];
    for item in way_up() {
        let met = lists[item.list as usize].as_mut();
        let met = met.expect("every list on the way has been met");
        let to_owners = *met
            .to_owners
            .get_or_insert_with(|| take_lines(tables, item, met.is_only_owner, &mut shared));
        shared[item.owner as usize] &= to_owners;
    }
    shared
}

/// Leaves of what is shared what the item's list gives to others than owners, and answers what it gives to
/// an owner. Whoever is the only owner on the way is nowhere one of the others.
fn take_lines(tables: &Tables, item: Item, is_only_owner: bool, shared: &mut [u32]) -> u32 {
    let list = tables.list_of(item);
    let everyone = list.everyone.unwrap_or(0);
    let mut given = given_by_lines(tables.tree(), &list);
    if let (true, Some(_)) = (is_only_owner, list.owner) {
        given[item.owner as usize] = ALL;
    }
    for (shared, given) in shared.iter_mut().zip(given) {
        *shared &= given | everyone;
    }
    list.owner.map_or(ALL, |privileges| privileges | everyone)
}

/// What the lines of a list give each subject, but for the lines for the owner and for everyone. The
/// custodian's entry says nothing.
fn given_by_lines(tree: Tree, list: &List) -> Vec<u32> {
    let mut given = given_by_groups(tree, list.groups());
    for line in list.own().iter().map(Line::of) {
        given[line.subject as usize] = line.privileges;
    }
    given
}

/// What the groups give each subject. The lines are looked at once each, and not for every subject.
fn given_by_groups(tree: Tree, lines: &[LineRow]) -> Vec<u32> {
    let lines = lines.iter().map(Line::of);
    // At first, what each subject passes on to those directly below it.
    let mut given = vec![0; tree.len()];
    let mut next = 0;
    for line in lines.clone() {
        pass_down(tree, next..line.subject, &mut given);
        given[line.subject as usize] = line.privileges;
        next = line.subject + 1;
    }
    pass_down(tree, next..tree.len() as u32, &mut given);
    // A head passes on its line, but is given what its parent passes on. The last head is the first
    // to get this: so the parent's entry is still what the parent passes on.
    for head in lines.rev().map(|line| line.subject) {
        given[head as usize] = given[tree.parent(head) as usize];
    }
    given
}

/// Subjects without a group line pass on what they are given. What their parents pass on is known
/// already, since these have lower numbers.
fn pass_down(tree: Tree, subjects: Range<u32>, passed_on: &mut [u32]) {
    for subject in subjects {
        passed_on[subject as usize] = passed_on[tree.parent(subject) as usize];
    }
}

/// The bytes of number n count the positions n, n + 8, n + 16 and n + 24. So a step counts four
/// positions, and the compiler makes it for four sets at once.
fn count_in_bytes(sets: impl Iterator<Item = u32>) -> [u32; 8] {
    let mut numbers = [0; 8];
    for set in sets {
        for (n, number) in numbers.iter_mut().enumerate() {
            *number += set >> n & 0x01_01_01_01;
        }
    }
    numbers
}

fn add(counts: &mut [u32; POSITIONS], in_bytes: [u32; 8]) {
    for (n, number) in in_bytes.into_iter().enumerate() {
        for (byte, count) in number.to_le_bytes().into_iter().enumerate() {
            counts[n + 8 * byte] += count as u32;
        }
    }
}
