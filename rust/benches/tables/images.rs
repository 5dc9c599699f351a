//! The images that are measured. The random ones have fixed seeds, so they are the same in every run.

use crate::random::Random;
use crate::sample::{EVERYONE, GROUP, ITSELF, OWNER};
use crate::tables::{Table, Tables, FOLDER_APPLIES, IS_LIST};
use dacm::Privileges;
use std::collections::{BTreeMap, BTreeSet};

const LONGEST: usize = 65_536;
const ITEM_BYTES: usize = 16;

/// Free rows of a table, so that a row can be added.
const SPARE: usize = 2;

const ALL: u32 = Privileges::ALL.0;
const READ: u32 = Privileges::READ.0;
const REPLACE: u32 = Privileges::REPLACE.0;
const DISCARD: u32 = Privileges::DISCARD.0;
const ANNOTATE: u32 = Privileges::ANNOTATE.0;
const EDIT_LIST: u32 = Privileges::EDIT_LIST.0;
const CUSTODIAN: [u32; 3] = [0, ALL, 0];

/// What random lines give at most. It does not include the right to edit a list, so that the search
/// for an editor goes through all subjects.
const DAILY_WORK: u32 = READ | REPLACE | DISCARD | ANNOTATE;

/// 1,000 subjects in a random tree, 600 grants, 1,000 lines on 40 lists, and as many items under these
/// lists as fit. Only the custodian and the last subject may edit the lists.
pub fn mixed() -> Tables {
    let random = &mut Random::new(1);
    let subjects = with_spare(random_tree(random, 1_000));
    let grants = with_spare(random_grants(random, 600, &subjects.rows));
    let lists = 40;
    let shape = ListShape {
        own: 11,
        own_below: 999,
        groups: 11,
        groups_below: 40,
        editor: Some(999),
    };
    let lines = (1..=lists).flat_map(|list| shape.lines(random, list));
    let mut tables = Tables {
        subjects,
        grants,
        lines: with_spare(lines.collect()),
        items: with_spare(Vec::new()),
    };
    let count = items_that_fit(&tables);
    tables.items.rows = random_items(random, count, lists, 1_000);
    tables
}

/// A chain of subjects, each below the one before, as many as fit. The list has a group line that a
/// search finds only near the top. The deepest subject owns the list; only it and the custodian may
/// edit it.
pub fn chain() -> Tables {
    let deepest = 5_435;
    let below = (0..deepest).map(|parent| [parent, 127, parent]);
    let lines = vec![
        [1, ITSELF, 2, DAILY_WORK],
        [1, GROUP, 1, READ | REPLACE],
        [1, OWNER, 0, EDIT_LIST],
        [1, EVERYONE, 0, READ],
    ];
    Tables {
        subjects: with_spare([CUSTODIAN].into_iter().chain(below).collect()),
        grants: with_spare(vec![[1, 7, 1, deepest, DAILY_WORK]]),
        lines: with_spare(lines),
        items: with_spare(vec![[deepest, 1, IS_LIST, 0], [1, 1, 0, 0], [2, 1, 0, 0]]),
    }
}

/// A chain of items, each in the one before, which applies as its folder, as many as fit. The first are
/// four lists, which govern themselves and the others by turns. The last is a list too. Subjects 1 and 2
/// own the items by turns. All may read all of them, so that the way up goes to the first item. Only the
/// custodian and subject 3, the last one, may edit the lists.
pub fn folders() -> Tables {
    let lists = 4;
    let lines_of = |list| {
        [
            [list, ITSELF, 2, DAILY_WORK],
            [list, ITSELF, 3, READ | EDIT_LIST],
            [list, GROUP, 1, READ | REPLACE],
            [list, OWNER, 0, READ | ANNOTATE],
            [list, EVERYONE, 0, READ],
        ]
    };
    let mut tables = Tables {
        subjects: with_spare(vec![CUSTODIAN, [0, 127, 0], [1, 127, 1], [1, 127, 1]]),
        grants: with_spare(vec![[2, 7, 1, 1, DAILY_WORK]]),
        lines: with_spare((1..=lists).flat_map(lines_of).collect()),
        items: with_spare(Vec::new()),
    };
    let last = items_that_fit(&tables) as u32;
    let item = |number: u32| {
        let owner = 1 + number % 2;
        let list = 1 + (number - 1) % lists;
        let is_list = number <= lists || number == last;
        let flags = if is_list { IS_LIST } else { 0 };
        let applies = if number > 1 { FOLDER_APPLIES } else { 0 };
        [owner, list, flags | applies, number - 1]
    };
    tables.items.rows = (1..=last).map(item).collect();
    tables
}

/// 3,000 lines on 10 lists, with 300 subjects and 100 items. Nobody but the custodian may edit the
/// lists.
pub fn lines() -> Tables {
    let random = &mut Random::new(2);
    let subjects = with_spare(random_tree(random, 300));
    let grants = with_spare(random_grants(random, 100, &subjects.rows));
    let lists = 10;
    let shape = ListShape {
        own: 149,
        own_below: 300,
        groups: 149,
        groups_below: 300,
        editor: None,
    };
    let lines: Vec<_> = (1..=lists)
        .flat_map(|list| shape.lines(random, list))
        .collect();
    assert_eq!(lines.len(), 3_000, "lines of this image");
    Tables {
        subjects,
        grants,
        lines: with_spare(lines),
        items: with_spare(random_items(random, 100, lists, 300)),
    }
}

/// The same without the lines for owners, so that an owner has what its own line or its groups give.
pub fn without_owner_lines() -> Tables {
    let mut tables = lines();
    tables.lines.rows.retain(|[_, kind, ..]| *kind != OWNER);
    tables
}

/// The 3,000 lines. Those for the second half of the subjects, by themselves or as groups, also give the
/// right to edit the list.
pub fn with_editors() -> Tables {
    let mut tables = lines();
    for [_, kind, subject, privileges] in &mut tables.lines.rows {
        if matches!(*kind, ITSELF | GROUP) && *subject >= 150 {
            *privileges |= EDIT_LIST;
        }
    }
    tables
}

/// As many pairs of a subject and an item as fit, which gives the longest report: 5,586,263 lines
/// after the heading. There are no lists and the tree is flat, so the time goes into the printing.
pub fn longest_report() -> Tables {
    let mut subjects = vec![[0, 127, 0]; 2_729];
    subjects[0] = CUSTODIAN;
    let items = (0..2_047).map(|owner| [owner, 0, 0, 0]).collect();
    Tables {
        subjects: full(subjects),
        items: full(items),
        ..Tables::default()
    }
}

/// How many more items an image of these tables can have.
fn items_that_fit(tables: &Tables) -> usize {
    (LONGEST - tables.image().len()) / ITEM_BYTES
}

fn with_spare<const FIELDS: usize>(rows: Vec<[u32; FIELDS]>) -> Table<FIELDS> {
    Table { rows, spare: SPARE }
}

fn full<const FIELDS: usize>(rows: Vec<[u32; FIELDS]>) -> Table<FIELDS> {
    Table { rows, spare: 0 }
}

/// The parent of each subject is a random earlier one. About half of the subjects were defined by
/// the custodian, the others by their parents, and each has some of its creator's privileges. The
/// last one has all, to be an editor.
fn random_tree(random: &mut Random, count: usize) -> Vec<[u32; 3]> {
    let mut rows = vec![CUSTODIAN];
    for number in 1..count {
        let parent = random.below(number);
        let creator = if random.one_in(2) { 0 } else { parent };
        let [_, most, _] = rows[creator];
        let privileges = (READ | random.number()) & most;
        rows.push([parent as u32, privileges, creator as u32]);
    }
    let [_, privileges, creator] = rows.last_mut().expect("the custodian is there");
    (*privileges, *creator) = (ALL, 0);
    rows
}

/// Grants of a few roles, each by the parent of its domain.
fn random_grants(random: &mut Random, count: usize, subjects: &[[u32; 3]]) -> Vec<[u32; 5]> {
    let mut grants = BTreeMap::new();
    while grants.len() < count {
        let receiver = random.below(subjects.len()) as u32;
        let role = random.pick(&[1, 2, 7]);
        let domain = random.below(subjects.len());
        let [grantor, _, _] = subjects[domain];
        grants.insert((receiver, role), (grantor, domain as u32, random.number()));
    }
    let row = |((receiver, role), (grantor, domain, privileges))| {
        [receiver, role, grantor, domain, privileges]
    };
    grants.into_iter().map(row).collect()
}

/// How many own and group lines a list has, and the bounds that their subjects' numbers are below.
/// A list has three more lines: for the owner, for everyone, and for the editor if there is one.
struct ListShape {
    own: usize,
    own_below: usize,
    groups: usize,
    groups_below: usize,
    editor: Option<u32>,
}

impl ListShape {
    fn lines(&self, random: &mut Random, list: u32) -> Vec<[u32; 4]> {
        let own = distinct(random, self.own, self.own_below).map(|subject| (ITSELF, subject));
        let groups = distinct(random, self.groups, self.groups_below).map(|head| (GROUP, head));
        let whom = own.chain(groups).chain([(OWNER, 0), (EVERYONE, 0)]);
        let line = |(kind, subject)| [list, kind, subject, random.number() & DAILY_WORK];
        let mut lines: Vec<[u32; 4]> = whom.map(line).collect();
        lines.extend(self.editor.map(|editor| [list, ITSELF, editor, EDIT_LIST]));
        lines.sort_unstable();
        lines
    }
}

/// As many different numbers below the bound as `count` says.
fn distinct(random: &mut Random, count: usize, bound: usize) -> impl Iterator<Item = u32> {
    let mut numbers = BTreeSet::new();
    while numbers.len() < count {
        numbers.insert(random.below(bound) as u32);
    }
    numbers.into_iter()
}

/// The first items are the lists. Each of the others is governed by one of these. None is in a folder.
fn random_items(random: &mut Random, count: usize, lists: u32, subjects: usize) -> Vec<[u32; 4]> {
    let mut item = |number| {
        let owner = random.below(subjects) as u32;
        if number <= lists {
            [owner, list_of_list(number), IS_LIST, 0]
        } else {
            [owner, 1 + random.below(lists as usize) as u32, 0, 0]
        }
    };
    (1..=count as u32).map(&mut item).collect()
}

/// Lists 1, 3, 5 and so on govern themselves, and each also governs the list after it.
fn list_of_list(list: u32) -> u32 {
    list - (list + 1) % 2
}
