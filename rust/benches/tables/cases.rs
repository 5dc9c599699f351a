//! What is measured: the images, and the calls and searches on each.

use crate::call::{Call, Counts};
use crate::images;
use crate::sample::{sample, ITSELF};
use crate::searching::{LineSearch, Way};
use crate::tables::{Tables, FOLDER_APPLIES};

/// The names of two rows that are compared with each other.
pub const FIRST_ROW: &str = "line search, the first row";
pub const PASS: &str = "pass over all rows";

const CUSTODIAN: u32 = 0;
const NO_ROLE: u32 = 0;

/// An image and what is timed on it.
pub struct Case {
    pub image_name: &'static str,
    pub image: Vec<u8>,
    pub operations: Vec<Operation>,
}

/// What is done with that image, with its name in the table of times.
pub struct Operation {
    pub name: &'static str,
    pub work: Work,
}

pub enum Work {
    Call(Call),
    Search(LineSearch),
}

pub fn cases() -> Vec<Case> {
    vec![
        sample_case(),
        mixed_case(),
        chain_case(),
        lines_case(),
        owners_case(),
        editors_case(),
        folders_case(),
        longest_report_case(),
    ]
}

fn sample_case() -> Case {
    let tables = sample();
    Case {
        image_name: "sample",
        image: tables.image(),
        operations: vec![
            call("check", Call::Check),
            call("permission set, under a role", set_of(4, 7, 2)),
            call("explain, under a role", explanation_of(4, 7, 2)),
            call("count holders", holders_on(2)),
            call("editor search, there is none", editor_of(1)),
            call("steps up", steps_of(5)),
            call("set line, overwrites", overwriting(&tables)),
            call("set line, inserts", inserting(&tables)),
            call("remove line", removing(&tables)),
        ],
    }
}

/// On the item that is asked about, the receiver's role adds only to the operation set. The deputy's
/// has a part there too.
fn mixed_case() -> Case {
    let tables = images::mixed();
    let [receiver, role, ..] = middle(&tables.grants.rows);
    let list = list_in_the_middle(&tables);
    let item = item_under(&tables, list);
    let [deputy, deputy_role] = role_that_counts(&tables, item);
    Case {
        image_name: "mixed",
        image: tables.image(),
        operations: vec![
            call("check", Call::Check),
            call("permission set", set_of(500, NO_ROLE, item)),
            call("permission set, under a role", set_of(receiver, role, item)),
            call(
                "permission set, the role counts",
                set_of(deputy, deputy_role, item),
            ),
            call("explain", explanation_of(500, NO_ROLE, item)),
            call(
                "explain, the role counts",
                explanation_of(deputy, deputy_role, item),
            ),
            call("count holders", holders_on(item)),
            call("editor search, the last subject", editor_of(list)),
            call("steps up, the deepest", steps_of(deepest_in(&tables))),
            call("set line, overwrites", overwriting(&tables)),
            call("set line, inserts", inserting(&tables)),
            call("remove line", removing(&tables)),
        ],
    }
}

/// The time goes into the way up the chain. There are few lines, so each is soon found.
fn chain_case() -> Case {
    let tables = images::chain();
    let deepest = tables.subjects.used() as u32 - 1;
    Case {
        image_name: "chain",
        image: tables.image(),
        operations: vec![
            call("check", Call::Check),
            call(
                "permission set, half way down",
                set_of(deepest / 2, NO_ROLE, 2),
            ),
            call("permission set, the deepest", set_of(deepest, NO_ROLE, 2)),
            call(
                "explain, half way down",
                explanation_of(deepest / 2, NO_ROLE, 2),
            ),
            call("explain, the deepest", explanation_of(deepest, NO_ROLE, 2)),
            call("count holders", holders_on(2)),
            call("editor search, the last subject", editor_of(1)),
            call("steps up, half way down", steps_of(deepest / 2)),
            call("steps up, the deepest", steps_of(deepest)),
            call("set line, overwrites", overwriting(&tables)),
            call("set line, inserts", inserting(&tables)),
            call("remove line", removing(&tables)),
        ],
    }
}

fn lines_case() -> Case {
    let tables = images::lines();
    let list = list_in_the_middle(&tables);
    let item = item_under(&tables, list);
    let mut operations = vec![
        call("check", Call::Check),
        call("permission set", set_of(150, NO_ROLE, item)),
        call("explain", explanation_of(150, NO_ROLE, item)),
        call("count holders", holders_on(item)),
        call("editor search, there is none", editor_of(list)),
        call("set line, overwrites", overwriting(&tables)),
        call("set line, inserts", inserting(&tables)),
        call("remove line", removing(&tables)),
    ];
    operations.extend(searches(&tables));
    Case {
        image_name: "lines",
        image: tables.image(),
        operations,
    }
}

/// The pass has the key of the last row, so that no pass can stop earlier.
fn searches(tables: &Tables) -> [Operation; 4] {
    let lines = &tables.lines.rows;
    let key = |row: usize| {
        let [list, kind, subject, _] = lines[row];
        [list, kind, subject]
    };
    let last = lines.len() - 1;
    let absent = absent_key(tables);
    let lower = lines.iter().filter(|line| line[..3] < absent[..]).count();
    [
        search(FIRST_ROW, Way::Search, key(0), 0),
        search("line search, the last row", Way::Search, key(last), last),
        search("line search, an absent key", Way::Search, absent, lower),
        search(PASS, Way::Pass, key(last), last),
    ]
}

/// No list has an owner line. The first item's owner has an own line, the other's has not.
fn owners_case() -> Case {
    let tables = images::without_owner_lines();
    let (owner, item) = owner_and_item(&tables, true);
    let (unnamed, its_item) = owner_and_item(&tables, false);
    Case {
        image_name: "owners",
        image: tables.image(),
        operations: vec![
            call("permission set, the own line", set_of(owner, NO_ROLE, item)),
            call(
                "permission set, the groups",
                set_of(unnamed, NO_ROLE, its_item),
            ),
            call(
                "explain, the own line",
                explanation_of(owner, NO_ROLE, item),
            ),
            call("count holders", holders_on(item)),
        ],
    }
}

/// But for the custodian, nobody in the first half of the subjects may edit the list. Many in the second
/// half may.
fn editors_case() -> Case {
    let tables = images::with_editors();
    let list = list_in_the_middle(&tables);
    Case {
        image_name: "editors",
        image: tables.image(),
        operations: vec![call("editor search, lowest of many", editor_of(list))],
    }
}

/// The time goes into the way up the folders. Each has few lines, which are soon found.
fn folders_case() -> Case {
    let tables = images::folders();
    let last = tables.items.used() as u32;
    let [technician, role, ..] = tables.grants.rows[0];
    let editor = tables.subjects.used() as u32 - 1;
    Case {
        image_name: "folders",
        image: tables.image(),
        operations: vec![
            call("check", Call::Check),
            call("permission set, the first", set_of(technician, NO_ROLE, 1)),
            call(
                "permission set, half way down",
                set_of(technician, NO_ROLE, last / 2),
            ),
            call(
                "permission set, the last",
                set_of(technician, NO_ROLE, last),
            ),
            call(
                "permission set, the role counts",
                set_of(technician, role, last),
            ),
            call(
                "explain, the last",
                explanation_of(technician, NO_ROLE, last),
            ),
            call("count holders, the last", holders_on(last)),
            call("editor search, the last subject", editor_of(last)),
            call("set line, on the last", new_line(editor, last)),
            call("create item, in the last", creating(last)),
        ],
    }
}

/// Only for its report.
fn longest_report_case() -> Case {
    Case {
        image_name: "longest report",
        image: images::longest_report().image(),
        operations: Vec::new(),
    }
}

fn call(name: &'static str, call: Call) -> Operation {
    let work = Work::Call(call);
    Operation { name, work }
}

fn search(name: &'static str, way: Way, key: [u32; 3], place: usize) -> Operation {
    let place = place as u32;
    let work = Work::Search(LineSearch { way, key, place });
    Operation { name, work }
}

fn set_of(subject: u32, role: u32, item: u32) -> Call {
    Call::PermissionSet {
        subject,
        role,
        item,
    }
}

fn explanation_of(subject: u32, role: u32, item: u32) -> Call {
    Call::Explain {
        subject,
        role,
        item,
    }
}

fn holders_on(item: u32) -> Call {
    let entries = Counts::POSITIONS;
    Call::CountHolders { item, entries }
}

fn editor_of(list: u32) -> Call {
    Call::FindEditor { list }
}

/// Up to the custodian.
fn steps_of(subject: u32) -> Call {
    Call::StepsUp {
        subject,
        root: CUSTODIAN,
    }
}

/// Sets the line in the middle of the table.
fn overwriting(tables: &Tables) -> Call {
    let [list, kind, subject, _] = middle(&tables.lines.rows);
    Call::SetLine {
        caller: CUSTODIAN,
        role: NO_ROLE,
        list,
        kind,
        subject,
        privileges: 5,
    }
}

/// Sets a line that is not there yet.
fn inserting(tables: &Tables) -> Call {
    let [list, kind, subject] = absent_key(tables);
    Call::SetLine {
        caller: CUSTODIAN,
        role: NO_ROLE,
        list,
        kind,
        subject,
        privileges: 5,
    }
}

/// Sets a line on a list that has none yet.
fn new_line(caller: u32, list: u32) -> Call {
    Call::SetLine {
        caller,
        role: NO_ROLE,
        list,
        kind: ITSELF,
        subject: caller,
        privileges: 5,
    }
}

/// Creates an item in a folder, which applies.
fn creating(folder: u32) -> Call {
    Call::CreateItem {
        caller: CUSTODIAN,
        role: NO_ROLE,
        list: 1,
        flags: FOLDER_APPLIES,
        folder,
    }
}

/// Removes the line in the middle of the table.
fn removing(tables: &Tables) -> Call {
    let [list, kind, subject, _] = middle(&tables.lines.rows);
    Call::RemoveLine {
        caller: CUSTODIAN,
        role: NO_ROLE,
        list,
        kind,
        subject,
    }
}

fn middle<const FIELDS: usize>(rows: &[[u32; FIELDS]]) -> [u32; FIELDS] {
    rows[rows.len() / 2]
}

fn list_in_the_middle(tables: &Tables) -> u32 {
    let [list, ..] = middle(&tables.lines.rows);
    list
}

/// The first item that is governed by this list and is not a list.
fn item_under(tables: &Tables, list: u32) -> u32 {
    (1..)
        .zip(&tables.items.rows)
        .find(|(_, [_, governing, flags, _])| *governing == list && *flags == 0)
        .map(|(number, _)| number)
        .expect("every list governs an item")
}

/// The owner and the number of the first item whose list has a line for its owner itself, or has none.
/// The custodian needs no line.
fn owner_and_item(tables: &Tables, is_named: bool) -> (u32, u32) {
    let owned = (1..).zip(&tables.items.rows);
    let mut owned = owned.filter(|(_, [owner, ..])| *owner != CUSTODIAN);
    owned
        .find(|(_, [owner, list, ..])| has_own_line(tables, *list, *owner) == is_named)
        .map(|(number, [owner, ..])| (*owner, number))
        .expect("some owners are named on the list, others are not")
}

/// The receiver and the role of the first grant for which lines of the grantor are looked up too: its
/// domain's tree has the item's owner, and its grantor is not the custodian.
fn role_that_counts(tables: &Tables, item: u32) -> [u32; 2] {
    let [owner, ..] = tables.items.rows[item as usize - 1];
    tables
        .grants
        .rows
        .iter()
        .find(|[_, _, grantor, domain, _]| *grantor != CUSTODIAN && tables.in_tree(owner, *domain))
        .map(|[receiver, role, ..]| [*receiver, *role])
        .expect("some domain has the item's owner")
}

/// The subject from which the most steps lead up to the custodian.
fn deepest_in(tables: &Tables) -> u32 {
    (0..tables.subjects.used() as u32)
        .max_by_key(|&subject| tables.steps_up(subject, CUSTODIAN))
        .expect("the custodian is there")
}

/// A subject that has no line of its own, on the list of the line in the middle of the table.
fn absent_key(tables: &Tables) -> [u32; 3] {
    let list = list_in_the_middle(tables);
    let subject = (1..)
        .find(|&subject| !has_own_line(tables, list, subject))
        .expect("no list has an own line for every subject");
    [list, ITSELF, subject]
}

fn has_own_line(tables: &Tables, list: u32, subject: u32) -> bool {
    let own = |line: &[u32; 4]| line[..3] == [list, ITSELF, subject];
    tables.lines.rows.iter().any(own)
}
