//! What the report program prints.

use super::opening::open;
use super::rows::{Item, NO_FOLDER};
use super::sets::Sets;
use super::tables::{item_index, Tables};
use super::text::{Lines, Text};
use std::io::{Result, Write};

/// The report on these bytes, or the refusal.
pub fn report(image: &[u8], out: &mut impl Write) -> Result<()> {
    match open(image) {
        Ok(tables) => report_sets(tables, out),
        Err(question) => writeln!(out, "refused {}", question as u32),
    }
}

/// A line costs three copies of texts that were made before. An item comes after its folder, so the
/// folder's set is known.
fn report_sets(tables: Tables, out: &mut impl Write) -> Result<()> {
    out.write_all(b"subject item set\n")?;
    let sets = Sets::new(tables);
    let items = items_with_text(tables, &sets.columns());
    let mut columns = Columns::new(sets.column_count());
    let mut folders = Folders::new(&items);
    let mut lines = Lines::new(out);
    for subject in 0..tables.subject_count() {
        let number = Text::new(subject, b' ');
        columns.turn_to(subject, &sets);
        for (index, item) in items.iter().enumerate() {
            let owned;
            let mut shown = &columns.shown[item.column];
            if item.owner == subject {
                if let Some(by_owner_line) = sets.by_owner_line(subject, item.column) {
                    owned = Shown::new(by_owner_line);
                    shown = &owned;
                }
            }
            if item.counts_in_folders {
                shown = folders.cut(index, item.folder, shown.set);
            }
            lines.put([&number, &item.number, &shown.text])?;
        }
    }
    lines.flush()
}

struct ItemWithText {
    number: Text,
    owner: u32,
    column: usize,
    /// The index of the folder that applies, if one does.
    folder: Option<usize>,
    /// Does a folder apply to the item, or does the item apply as a folder?
    counts_in_folders: bool,
}

fn items_with_text(tables: Tables, columns: &[usize]) -> Vec<ItemWithText> {
    let with_text = |(number, row)| {
        let item = Item::of(row);
        let folder = item.applied_folder();
        ItemWithText {
            number: Text::new(number, b' '),
            owner: item.owner,
            column: columns[item.list as usize],
            folder: (folder != NO_FOLDER).then(|| item_index(folder)),
            counts_in_folders: false,
        }
    };
    let mut items: Vec<_> = (1..).zip(tables.items.used).map(with_text).collect();
    for index in 0..items.len() {
        if let Some(folder) = items[index].folder {
            items[index].counts_in_folders = true;
            items[folder].counts_in_folders = true;
        }
    }
    items
}

/// A set and its text.
#[derive(Clone, Copy)]
struct Shown {
    set: u32,
    text: Text,
}

impl Shown {
    fn new(set: u32) -> Shown {
        let text = Text::new(set, b'\n');
        Shown { set, text }
    }

    /// Many sets are the same as those of the subject before, and so are their texts.
    #[inline]
    fn turn_to(&mut self, set: u32) {
        if self.set != set {
            *self = Shown::new(set);
        }
    }
}

/// The sets of one subject by column.
struct Columns {
    shown: Vec<Shown>,
    next_sets: Vec<u32>,
}

impl Columns {
    fn new(columns: usize) -> Columns {
        Columns {
            shown: vec![Shown::new(0); columns],
            next_sets: vec![0; columns],
        }
    }

    fn turn_to(&mut self, subject: u32, sets: &Sets) {
        sets.write(subject, &mut self.next_sets);
        for (shown, &next) in self.shown.iter_mut().zip(&self.next_sets) {
            shown.turn_to(next);
        }
    }
}

/// The sets of one subject by item, of items that count in folders. There are none if no folder applies
/// anywhere.
struct Folders {
    shown: Vec<Shown>,
}

impl Folders {
    fn new(items: &[ItemWithText]) -> Folders {
        let any = items.iter().any(|item| item.counts_in_folders);
        let count = if any { items.len() } else { 0 };
        Folders {
            shown: vec![Shown::new(0); count],
        }
    }

    /// Of an item's own set, what is in the folder's set too.
    fn cut(&mut self, index: usize, folder: Option<usize>, own: u32) -> &Shown {
        let set = folder.map_or(own, |folder| own & self.shown[folder].set);
        self.shown[index].turn_to(set);
        &self.shown[index]
    }
}
