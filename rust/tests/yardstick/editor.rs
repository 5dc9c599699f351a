//! The search for an editor of a list. Only lines that give the right to edit are followed, so that
//! nothing is worked out for subjects that no such line can reach.

use super::holders::given_with_folders;
use super::list::List;
use super::rows::{Item, Line, CUSTODIAN, EDIT_LIST};
use super::tables::Tables;

/// The lowest subject other than the custodian that may edit the list, if there is one. The list is an
/// item here: the lines of its own list decide.
pub fn lowest(tables: &Tables, item: Item) -> Option<u32> {
    if tables.folder_of(item).is_some() {
        return lowest_in_folder(tables, item);
    }
    let search = Search {
        tables,
        owner: item.owner,
        list: tables.list_of(item),
    };
    if search.list.everyone.is_some_and(gives) {
        return search.lowest_able();
    }
    let direct = [search.by_owner_line(), search.by_own_line()];
    let direct = direct.into_iter().flatten().min();
    let end = direct.unwrap_or(tables.subject_count());
    search.by_group_line(end).or(direct)
}

/// All lines on the way up have to give the right, so they are taken for all subjects together.
#[cold]
fn lowest_in_folder(tables: &Tables, item: Item) -> Option<u32> {
    let given = given_with_folders(tables, item);
    let is_editor =
        |subject: &u32| gives(tables.subject(*subject).privileges & given[*subject as usize]);
    (1..tables.subject_count()).find(is_editor)
}

fn gives(privileges: u32) -> bool {
    privileges & EDIT_LIST != 0
}

struct Search<'a> {
    tables: &'a Tables<'a>,
    owner: u32,
    list: List<'a>,
}

impl Search<'_> {
    /// A line can make an editor only of a subject that has the right by its own row.
    fn is_able(&self, subject: u32) -> bool {
        subject != CUSTODIAN && gives(self.tables.subject(subject).privileges)
    }

    fn lowest_able(&self) -> Option<u32> {
        (0..self.tables.subject_count()).find(|&subject| self.is_able(subject))
    }

    fn by_owner_line(&self) -> Option<u32> {
        let given = self.list.owner.is_some_and(gives);
        (given && self.is_able(self.owner)).then_some(self.owner)
    }

    /// The lines stand in the order of their subjects. The owner's own line does not count beside an
    /// owner line.
    fn by_own_line(&self) -> Option<u32> {
        let passed_over = self.list.owner.map(|_| self.owner);
        let mut lines = self.list.own().iter().map(Line::of);
        let named = lines.find(|line| {
            let subject = line.subject;
            gives(line.privileges) && passed_over != Some(subject) && self.is_able(subject)
        });
        named.map(|line| line.subject)
    }

    /// One pass from the top, over the subjects before `end`: what the groups give a subject is known
    /// before anybody below it is looked at.
    fn by_group_line(&self, end: u32) -> Option<u32> {
        let mut lines = self.list.groups().iter().map(Line::of).peekable();
        if !lines.clone().any(|line| gives(line.privileges)) {
            return None;
        }
        let tree = self.tables.tree();
        let mut given_below = Vec::with_capacity(end as usize);
        for subject in 0..end {
            let above = subject != CUSTODIAN && given_below[tree.parent(subject) as usize];
            let by_groups = || self.list.by_direct_line(subject, self.owner).is_none();
            if above && self.is_able(subject) && by_groups() {
                return Some(subject);
            }
            let line = lines.next_if(|line| line.subject == subject);
            given_below.push(line.map_or(above, |line| gives(line.privileges)));
        }
        None
    }
}
