//! How a permission is found, on an accepted image.

use super::list::List;
use super::rows::{Grant, Item, ALL, CUSTODIAN, OUTSIDE};
use super::tables::Tables;
use super::tree::{Climbs, Tree};
use super::Explanation;

/// A way up through fewer folders is no effort.
const FEW_FOLDERS: usize = 8;

/// The subject's own row, and of the grant what its grantor's row has too.
#[inline]
pub fn operation_set(tables: &Tables, subject: u32, grant: Option<Grant>) -> u32 {
    let own = tables.subject(subject).privileges;
    let lent = grant.map_or(0, |grant| {
        grant.privileges & tables.subject(grant.grantor).privileges
    });
    own | lent
}

/// What is left of the operation set on the way from the item up the folders that apply. Where nothing is
/// left, no further folder is looked at. The custodian has all on each of them.
pub fn permission_set(tables: &Tables, subject: u32, role: u32, item: Item) -> u32 {
    if subject == CUSTODIAN {
        return ALL;
    }
    let grant = tables.grant(subject, role);
    let mut left = operation_set(tables, subject, grant);
    let mut item = item;
    for _ in 0..FEW_FOLDERS {
        let lent = grant.filter(|grant| tables.tree().is_in(item.owner, grant.domain));
        left &= object_set(tables, subject, lent, item);
        match tables.folder_of(item) {
            Some(folder) if left != 0 => item = folder,
            _ => return left,
        }
    }
    left_far_up(tables, subject, grant, item, left)
}

/// The same from a folder on. What an item gives is decided by its list and by whom its owner is to
/// subject and grant. So it is worked out once for each of these cases.
#[cold]
fn left_far_up(
    tables: &Tables,
    subject: u32,
    grant: Option<Grant>,
    folder: Item,
    left: u32,
) -> u32 {
    // For each list the cases that have been met.
    let mut met = vec![0_u8; tables.items.used.len() + 1];
    let mut climbs = Climbs::new(tables.tree());
    let mut left = left;
    let mut next = Some(folder);
    while let (Some(item), 1..) = (next, left) {
        let lent = grant.filter(|grant| climbs.is_in(item.owner, grant.domain));
        let case = 1 << case(subject, lent, item.owner);
        let met = &mut met[item.list as usize];
        if *met & case == 0 {
            *met |= case;
            left &= object_set(tables, subject, lent, item);
        }
        next = tables.folder_of(item);
    }
    left
}

/// Below 6: whether the owner is the subject; and whether the role does not count on the item, counts, or
/// counts and was granted by the owner.
#[inline]
fn case(subject: u32, lent: Option<Grant>, owner: u32) -> u8 {
    let by_subject = u8::from(owner == subject);
    let by_role = lent.map_or(0, |grant| 1 + u8::from(owner == grant.grantor));
    2 * by_role + by_subject
}

/// What lines and role give. The grant is there if it counts on the item.
#[inline]
fn object_set(tables: &Tables, subject: u32, lent: Option<Grant>, item: Item) -> u32 {
    let tree = tables.tree();
    let list = tables.list_of(item);
    list.part(tree, subject, item.owner) | role_part(tree, &list, lent, item.owner)
}

/// The list is looked up once, for the subject and for the grantor.
pub fn explain(tables: &Tables, subject: u32, role: u32, item: Item) -> Explanation {
    let tree = tables.tree();
    let list = tables.list_of(item);
    let grant = tables.grant(subject, role);
    let decision = list.decision(tree, subject, item.owner);
    let steps = grant.and_then(|grant| tree.steps_up(item.owner, grant.domain));
    Explanation {
        number: 0,
        rule: decision.rule as u32,
        group: decision.group,
        rule_set: decision.privileges,
        everyone_set: list.everyone_set(subject),
        role_set: role_part(tree, &list, steps.and(grant), item.owner),
        operations: operation_set(tables, subject, grant),
        steps: steps.unwrap_or(OUTSIDE),
        folder: item.applied_folder(),
    }
}

/// Of the grant what its grantor's lines' part has too. The grant is there if it counts on the item: if
/// the owner is in the domain's tree.
#[inline]
fn role_part(tree: Tree, list: &List, lent: Option<Grant>, owner: u32) -> u32 {
    lent.map_or(0, |grant| {
        grant.privileges & list.part(tree, grant.grantor, owner)
    })
}
