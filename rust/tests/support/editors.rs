//! Whom the editor search must name, by the permission sets that the library answers.

use super::explanation::NOTHING_FOUND;
use super::tables::Tables;
use dacm::{Item, Privileges, Role, Subject};

/// How a search ends. `under_role` says whether the search passes over a subject that could edit the
/// list under a role that it holds.
#[derive(Clone, Copy, Debug, PartialEq, Eq, PartialOrd, Ord)]
pub enum Ending {
    NoList,
    Nobody {
        under_role: bool,
    },
    /// The rule that gives whoever is named the right to edit, and whether others could be named.
    Named {
        rule: u32,
        several: bool,
        under_role: bool,
    },
}

/// The number and the result that the search has to answer on an accepted image, and how it ends.
pub fn expected(tables: &Tables, image: &[u8], list: u32) -> (u32, u32, Ending) {
    if !tables.lists().contains(&list) {
        return (13, 0, Ending::NoList);
    }
    let others = 1..tables.subjects.used() as u32;
    let may_edit = |subject: &u32| may_edit(image, *subject, Role::NONE, list);
    let editors: Vec<u32> = others.clone().filter(may_edit).collect();
    let Some(&lowest) = editors.first() else {
        let under_role = others_under_role(tables, image, list, others.end);
        return (20, 0, Ending::Nobody { under_role });
    };
    let ending = Ending::Named {
        rule: giving_rule(image, lowest, list),
        several: editors.len() > 1,
        under_role: others_under_role(tables, image, list, lowest),
    };
    (0, lowest, ending)
}

/// The rule that gives a subject the right to edit. The line for everyone has none, so it counts as the
/// rule that finds nothing.
fn giving_rule(image: &[u8], subject: u32, list: u32) -> u32 {
    let why = dacm::explain(image, Subject(subject), Role::NONE, Item(list));
    let why = why.expect("its permission set was answered");
    match why.rule_set.contains(Privileges::EDIT_LIST) {
        true => why.rule.number(),
        false => NOTHING_FOUND,
    }
}

/// Could a subject before `end`, other than the custodian, edit the list under a role?
fn others_under_role(tables: &Tables, image: &[u8], list: u32, end: u32) -> bool {
    tables.grants.rows.iter().any(|&[receiver, role, ..]| {
        (1..end).contains(&receiver) && may_edit(image, receiver, Role(role), list)
    })
}

/// What the folders that apply do to a search.
#[derive(Clone, Copy, Debug, PartialEq, Eq, PartialOrd, Ord)]
pub enum ByFolders {
    NoneApplies,
    NobodyIsPassedOver,
    /// Somebody is passed over who has the right by the list's own set.
    SomebodyIsPassedOver,
}

/// What folders do to a search that has named this subject, or nobody.
pub fn by_folders(tables: &Tables, image: &[u8], list: u32, named: Option<u32>) -> ByFolders {
    if tables.folder_of(list).is_none() {
        return ByFolders::NoneApplies;
    }
    let end = named.unwrap_or(tables.subjects.used() as u32);
    let has_right = |subject| {
        let why = dacm::explain(image, Subject(subject), Role::NONE, Item(list));
        let own_set = why.expect("subject and list are in use").own_set();
        own_set.contains(Privileges::EDIT_LIST)
    };
    match (1..end).any(has_right) {
        true => ByFolders::SomebodyIsPassedOver,
        false => ByFolders::NobodyIsPassedOver,
    }
}

fn may_edit(image: &[u8], subject: u32, role: Role, list: u32) -> bool {
    let set = dacm::permission_set(image, Subject(subject), role, Item(list));
    set.expect("subject and list are in use")
        .contains(Privileges::EDIT_LIST)
}
