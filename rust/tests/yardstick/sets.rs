//! The permission sets of all subjects on all items, without a role. The lists are taken apart once,
//! into a column for each list that has lines. Then a subject's sets cost a few instructions a column.

use super::list::List;
use super::rows::{Line, LineRow, ALL, CUSTODIAN, NO_LIST};
use super::tables::Tables;
use super::tree::Tree;

/// The column of items without a list, and of lists without lines.
const NO_LINES: usize = 0;

pub struct Sets<'a> {
    tables: Tables<'a>,
    lists: Vec<List<'a>>,
    own: BySubject,
    groups: Groups,
}

impl<'a> Sets<'a> {
    pub fn new(tables: Tables<'a>) -> Sets<'a> {
        let list_of = |row: &LineRow| Line::of(row).list;
        let lines = tables.lines.used;
        let with_lines = lines
            .chunk_by(|one, next| list_of(one) == list_of(next))
            .map(|lines| List::at_end(lines, list_of(&lines[0])));
        let without_lines = List::at_end(&[], NO_LIST);
        let lists: Vec<List> = [without_lines].into_iter().chain(with_lines).collect();
        let subjects = tables.subjects.used.len();
        let own = BySubject::new(subjects, lists.iter().map(List::own));
        let heads = BySubject::new(subjects, lists.iter().map(List::groups));
        let groups = Groups::new(tables.tree(), &heads, lists.len());
        Sets {
            tables,
            lists,
            own,
            groups,
        }
    }

    /// The columns, by the number of the list.
    pub fn columns(&self) -> Vec<usize> {
        let mut columns = vec![NO_LINES; self.tables.items.used.len() + 1];
        for (column, list) in self.lists.iter().enumerate() {
            columns[list.number as usize] = column;
        }
        columns
    }

    pub fn column_count(&self) -> usize {
        self.lists.len()
    }

    /// Writes the subject's set of each column, on items where no owner line decides.
    pub fn write(&self, subject: u32, sets: &mut [u32]) {
        if subject == CUSTODIAN {
            return sets.fill(ALL);
        }
        sets.copy_from_slice(self.groups.given_to(subject));
        for line in self.own.of(subject) {
            sets[line.column as usize] = line.privileges;
        }
        let operations = self.tables.subject(subject).privileges;
        for (set, list) in sets.iter_mut().zip(&self.lists) {
            *set = (*set | list.everyone.unwrap_or(0)) & operations;
        }
    }

    /// The subject's set on an item of this column that it owns, if the owner line decides. It does not
    /// for the custodian, who needs no line.
    pub fn by_owner_line(&self, subject: u32, column: usize) -> Option<u32> {
        if subject == CUSTODIAN {
            return None;
        }
        let list = &self.lists[column];
        let part = list.owner? | list.everyone.unwrap_or(0);
        Some(part & self.tables.subject(subject).privileges)
    }
}

/// A line, seen from its subject.
#[derive(Clone, Copy, Default)]
struct Entry {
    column: u32,
    privileges: u32,
}

/// Lines of one kind from all lists, sorted by subject.
struct BySubject {
    entries: Vec<Entry>,
    /// For each subject the index of its first entry, and at the end the count of entries.
    starts: Vec<usize>,
}

impl BySubject {
    /// Takes these lines of each list, in the order of the columns.
    fn new<'a>(subjects: usize, lists: impl Iterator<Item = &'a [LineRow]> + Clone) -> BySubject {
        let mut starts = vec![0; subjects + 1];
        for line in lists.clone().flatten().map(Line::of) {
            starts[line.subject as usize + 1] += 1;
        }
        for subject in 0..subjects {
            starts[subject + 1] += starts[subject];
        }
        let mut entries = vec![Entry::default(); starts[subjects]];
        let mut next = starts.clone();
        for (column, lines) in (0..).zip(lists) {
            for line in lines.iter().map(Line::of) {
                let index = &mut next[line.subject as usize];
                entries[*index] = Entry {
                    column,
                    privileges: line.privileges,
                };
                *index += 1;
            }
        }
        BySubject { entries, starts }
    }

    fn of(&self, subject: u32) -> &[Entry] {
        let subject = subject as usize;
        &self.entries[self.starts[subject]..self.starts[subject + 1]]
    }
}

/// What the groups give. Subjects that are below the same heads of groups share a row of privileges,
/// one for each column. So there is a row for each head and one for those below none, which is at most
/// 11 MB: an image holds some 1,600 heads and as many lists at most.
struct Groups {
    columns: usize,
    rows: Vec<u32>,
    /// For each subject the index of its row.
    row_of: Vec<usize>,
}

impl Groups {
    /// One pass from the top: a head's row is known before anybody below it is looked at.
    fn new(tree: Tree, heads: &BySubject, columns: usize) -> Groups {
        let mut rows = vec![0; columns];
        let mut row_of = Vec::new();
        let mut row_below: Vec<usize> = Vec::new();
        for subject in 0..tree.len() as u32 {
            let above = match subject {
                CUSTODIAN => 0,
                _ => row_below[tree.parent(subject) as usize],
            };
            row_of.push(above);
            let lines = heads.of(subject);
            if lines.is_empty() {
                row_below.push(above);
                continue;
            }
            let start = rows.len();
            rows.extend_from_within(above * columns..(above + 1) * columns);
            for line in lines {
                rows[start + line.column as usize] = line.privileges;
            }
            row_below.push(start / columns);
        }
        Groups {
            columns,
            rows,
            row_of,
        }
    }

    fn given_to(&self, subject: u32) -> &[u32] {
        let start = self.row_of[subject as usize] * self.columns;
        &self.rows[start..start + self.columns]
    }
}
