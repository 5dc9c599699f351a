//! Random accepted images.

use super::choose::{privileges, ROLES};
use super::random::Random;
use super::sample::{EVERYONE, OWNER};
use super::tables::{Table, Tables, FOLDER_APPLIES, IS_LIST};
use std::collections::BTreeMap;

/// How many used and free rows each table is to have, in the header's order. There may be fewer
/// lines and grants than asked for: rows with the same key count once, and without a list there are
/// no lines. The rows left over are then free.
#[derive(Clone, Copy, Debug)]
pub struct Size {
    pub used: [usize; 4],
    pub spare: [usize; 4],
}

impl Size {
    /// Small enough that all relations between subjects and items are frequent.
    pub fn small(random: &mut Random) -> Size {
        Size {
            used: [
                1 + random.up_to(9),
                random.up_to(6),
                random.up_to(14),
                random.up_to(6),
            ],
            spare: std::array::from_fn(|_| random.up_to(2)),
        }
    }

    /// Small at first, with free rows for many more.
    pub fn growing(random: &mut Random) -> Size {
        Size {
            spare: [30, 12, 24, 20].map(|most| {
                let most = if random.one_in(4) { 2 } else { most };
                random.up_to(most)
            }),
            ..Size::small(random)
        }
    }

    /// Exactly 65,536 bytes: 16,375 fields after the header.
    pub fn longest(random: &mut Random) -> Size {
        Size::of_fields(random, 16_375)
    }

    /// Any size between a small one and the longest.
    pub fn larger(random: &mut Random) -> Size {
        let fields = 200 + random.below(16_000);
        Size::of_fields(random, fields)
    }

    /// The four tables together have exactly this many fields, at least 100.
    fn of_fields(random: &mut Random, fields: usize) -> Size {
        let mut grants = random.up_to(fields / 16);
        let lines = random.up_to(fields / 10);
        // Subjects and items share the rest, at least 28 fields. Subjects have three fields a row.
        let mut rest = fields - 5 * grants - 4 * lines;
        let items = random.up_to((rest - 16) / 4);
        rest -= 4 * items;
        while !rest.is_multiple_of(3) {
            grants += 1;
            rest -= 5;
        }
        let subjects = rest / 3;
        // At most half of a table is free, so that the custodian's row is used.
        let capacity = [subjects, grants, lines, items];
        let spare = capacity.map(|rows| random.pick(&[0, 1, rows]).min(rows / 2));
        Size {
            used: std::array::from_fn(|table| capacity[table] - spare[table]),
            spare,
        }
    }

    /// An accepted library of this size.
    pub fn library(self, random: &mut Random) -> Tables {
        let [subjects, grants, lines, items] = self.used;
        let mut tables = Tables {
            subjects: self.table(0, subject_rows(random, subjects)),
            items: self.table(3, item_rows(random, items, subjects)),
            ..Tables::default()
        };
        tables.lines = self.table(2, line_rows(random, lines, &tables));
        tables.grants = self.table(1, grant_rows(random, grants, &tables));
        tables
    }

    /// The table with these rows. The rest of its capacity is free.
    fn table<const FIELDS: usize>(&self, index: usize, rows: Vec<[u32; FIELDS]>) -> Table<FIELDS> {
        let capacity = self.used[index] + self.spare[index];
        Table {
            spare: capacity - rows.len(),
            rows,
        }
    }
}

/// How a subject's parent is chosen.
#[derive(Clone, Copy)]
enum Tree {
    Chain,
    Flat,
    Any,
}

fn subject_rows(random: &mut Random, count: usize) -> Vec<[u32; 3]> {
    let tree = random.pick(&[Tree::Chain, Tree::Flat, Tree::Any, Tree::Any]);
    let mut rows = vec![[0, u32::MAX, 0]];
    for number in 1..count {
        let parent = match tree {
            Tree::Chain => number - 1,
            Tree::Flat => 0,
            Tree::Any => random.below(number),
        };
        // A subject has only privileges of its creator, so sets shrink from creator to creator.
        // That is why more than half of the subjects are created by the custodian.
        let creator = if random.one_in(2) {
            0
        } else {
            random.below(number)
        };
        let [_, most, _] = rows[creator];
        rows.push([parent as u32, privileges(random) & most, creator as u32]);
    }
    rows
}

/// How an item's folder is chosen. Two folders in three apply.
#[derive(Clone, Copy)]
enum Folders {
    None,
    OneBefore,
    Any,
}

fn item_rows(random: &mut Random, count: usize, subjects: usize) -> Vec<[u32; 4]> {
    let folders = random.pick(&[
        Folders::None,
        Folders::OneBefore,
        Folders::Any,
        Folders::Any,
    ]);
    let flags: Vec<u32> = (0..count).map(|_| random.below(4) as u32).collect();
    let lists: Vec<u32> = (1..)
        .zip(&flags)
        .filter(|(_, flags)| *flags & IS_LIST != 0)
        .map(|(number, _)| number)
        .collect();
    let row = |(number, flags)| {
        let owner = random.below(subjects) as u32;
        let is_list = flags & IS_LIST != 0;
        // Any list is allowed, with a higher or a lower number, and a list may be its own.
        let list = match random.pick_any(&lists) {
            Some(_) if is_list && random.one_in(3) => number,
            Some(list) if !random.one_in(6) => list,
            _ => 0,
        };
        let folder = match folders {
            Folders::None => 0,
            Folders::OneBefore => number - 1,
            Folders::Any => random.below(number as usize) as u32,
        };
        let applies = folder != 0 && !random.one_in(3);
        let flags = if applies {
            flags | FOLDER_APPLIES
        } else {
            flags
        };
        [owner, list, flags, folder]
    };
    (1..).zip(flags).map(row).collect()
}

fn line_rows(random: &mut Random, count: usize, tables: &Tables) -> Vec<[u32; 4]> {
    let lists = tables.lists();
    let mut rows = BTreeMap::new();
    for _ in 0..count {
        let Some(list) = random.pick_any(&lists) else {
            break;
        };
        let kind = random.below(4) as u32;
        let subject = match kind {
            OWNER | EVERYONE => 0,
            _ => random.below(tables.subjects.used()) as u32,
        };
        rows.insert((list, kind, subject), privileges(random));
    }
    let row = |((list, kind, subject), privileges)| [list, kind, subject, privileges];
    rows.into_iter().map(row).collect()
}

fn grant_rows(random: &mut Random, count: usize, tables: &Tables) -> Vec<[u32; 5]> {
    let subjects = tables.subjects.used();
    let mut rows = BTreeMap::new();
    for _ in 0..count {
        let receiver = random.below(subjects) as u32;
        let role = random.pick(&ROLES);
        let grantor = if random.one_in(4) {
            0
        } else {
            random.below(subjects) as u32
        };
        let domain = in_tree_of(random, tables, grantor);
        rows.insert((receiver, role), (grantor, domain, privileges(random)));
    }
    let row = |((receiver, role), (grantor, domain, privileges))| {
        [receiver, role, grantor, domain, privileges]
    };
    rows.into_iter().map(row).collect()
}

/// A subject in the tree of the head. Those below it have higher numbers. If a few random tries find
/// none, it is the head itself.
fn in_tree_of(random: &mut Random, tables: &Tables, head: u32) -> u32 {
    let higher = tables.subjects.used() - head as usize;
    (0..4)
        .map(|_| head + random.below(higher) as u32)
        .find(|&subject| tables.in_tree(subject, head))
        .unwrap_or(head)
}
