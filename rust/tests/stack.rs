//! The stack that the library promises to be enough: every call that searches groups, counts steps or
//! follows folders, on the longest chains of groups and of folders and the longest searches that fit into
//! an image, on a thread that has exactly this stack.

mod support;
mod twin;
mod yardstick;

use dacm::{Explanation, Item, Kind, Privileges, Refusal, Role, Rule, Subject, STACK_BYTES};
use std::thread;
use support::sample::{EVERYONE, GROUP};
use support::tables::{Table, Tables, FOLDER_APPLIES, IS_LIST};

const ALL: u32 = Privileges::ALL.0;
const READ: u32 = Privileges::READ.0;
const EDIT_LIST: u32 = Privileges::EDIT_LIST.0;
const LONGEST: usize = 65_536;
const SUBJECT_BYTES: usize = 12;
const LINE_BYTES: usize = 16;
const ITEM_BYTES: usize = 16;

/// A chain of subjects, each below the one before, as many as fit beside these rows. The one item is
/// a list, which is its own list and the custodian's.
fn chain(grants: Vec<[u32; 5]>, lines: Vec<[u32; 4]>) -> Tables {
    let mut tables = Tables {
        subjects: Table::default(),
        grants: Table {
            rows: grants,
            spare: 0,
        },
        lines: Table {
            rows: lines,
            spare: 0,
        },
        items: Table {
            rows: vec![[0, 1, IS_LIST, 0]],
            spare: 0,
        },
    };
    let many = (LONGEST - tables.image().len()) / SUBJECT_BYTES;
    let below = (1..many as u32).map(|number| [number - 1, ALL, number - 1]);
    tables.subjects.rows = [[0, ALL, 0]].into_iter().chain(below).collect();
    tables
}

/// A chain of the subjects with even numbers, and a group line for each odd number, as many as fit.
/// Nobody is below an odd number. So on the way up, the search meets a group line between every two
/// groups that it passes, and none that decides: it has to be made anew for each of them.
fn lines_between_the_groups() -> Tables {
    let mut tables = chain(vec![], vec![]);
    tables.subjects.rows.clear();
    let pairs = (LONGEST - tables.image().len()) / (2 * SUBJECT_BYTES + LINE_BYTES);
    let pairs = 0..pairs as u32;
    let two = |pair: u32| [[(2 * pair).saturating_sub(2), ALL, 0], [0, ALL, 0]];
    tables.subjects.rows = pairs.clone().flat_map(two).collect();
    tables.lines.rows = pairs.map(|pair| [1, GROUP, 2 * pair + 1, ALL]).collect();
    tables
}

/// Adds lists to the one that is there, as many as fit. Each is under the first list and in the folder
/// before it, which applies.
fn add_folders(tables: &mut Tables) {
    let many = (LONGEST - tables.image().len()) / ITEM_BYTES;
    let lists = (1..=many as u32).map(|folder| [0, 1, IS_LIST | FOLDER_APPLIES, folder]);
    tables.items.rows.extend(lists);
}

/// Does some work on a thread with the promised stack and no more. If the work needs more, the whole
/// test program ends.
fn on_promised_stack<T: Send + 'static>(work: impl FnOnce() -> T + Send + 'static) -> T {
    let thread = thread::Builder::new().stack_size(STACK_BYTES).spawn(work);
    thread
        .expect("a thread with the promised stack")
        .join()
        .expect("the calls return")
}

/// What the calls that need a permission set answer, for this subject where they name one, under no
/// role. Of the counts it is how many may read.
fn answers_on(mut image: Vec<u8>, subject: Subject, list: Item) -> [Result<u32, Refusal>; 5] {
    let set = dacm::permission_set(&image, subject, Role::NONE, list).map(|set| set.0);
    let readers = dacm::count_holders(&image, list).map(|counts| counts[0]);
    let editor = dacm::find_editor(&image, list).map(|subject| subject.0);
    let (own, none, other) = (Kind::ITSELF, Role::NONE, Subject(1));
    let read = Privileges::READ;
    let line = dacm::set_line(&mut image, subject, none, list, own, other, read).map(|()| 0);
    let gone = dacm::remove_line(&mut image, subject, none, list, own, other).map(|()| 0);
    [set, readers, editor, line, gone]
}

/// The same on the first list, for the deepest subject.
fn answers(image: Vec<u8>, deepest: Subject) -> [Result<u32, Refusal>; 5] {
    answers_on(image, deepest, Item(1))
}

/// The explanation for the deepest subject, under no role.
fn explanation(image: Vec<u8>, deepest: Subject) -> Explanation {
    on_promised_stack(move || dacm::explain(&image, deepest, Role::NONE, Item(1)))
        .expect("subject and item are in use")
}

#[test]
fn no_group_line_at_all() {
    let tables = chain(vec![], vec![]);
    let deepest = Subject(tables.subjects.used() as u32 - 1);
    assert_eq!(
        deepest,
        Subject(5_456),
        "the deepest chain that an image holds"
    );
    let image = tables.image();
    let explanation = explanation(image.clone(), deepest);
    assert_eq!(explanation.rule, Rule::NothingFound);
    let answers = on_promised_stack(move || answers(image, deepest));
    let (no_editor, refused) = (Err(Refusal::NoEditor), Err(Refusal::NotPermitted));
    assert_eq!(answers, [Ok(0), Ok(1), no_editor, refused, refused]);
}

#[test]
fn a_group_line_at_the_top() {
    let mut tables = chain(vec![], vec![[1, GROUP, 0, EDIT_LIST | READ]; 2]);
    tables.lines.rows.pop();
    tables.lines.spare = 1;
    let deepest = Subject(tables.subjects.used() as u32 - 1);
    let image = tables.image();
    let explanation = explanation(image.clone(), deepest);
    assert_eq!(explanation.rule, Rule::GroupLine(Subject::CUSTODIAN));
    assert_eq!(explanation.rule_set, Privileges(EDIT_LIST | READ));
    let answers = on_promised_stack(move || answers(image, deepest));
    let (set, everybody) = (EDIT_LIST | READ, deepest.0 + 1);
    assert_eq!(answers, [Ok(set), Ok(everybody), Ok(1), Ok(0), Ok(0)]);
}

#[test]
fn a_group_line_between_every_two_groups() {
    let tables = lines_between_the_groups();
    assert_eq!(tables.lines.used(), 1_637, "the most that an image holds");
    let deepest = Subject(tables.subjects.used() as u32 - 2);
    let image = tables.image();
    let explanation = explanation(image.clone(), deepest);
    assert_eq!(explanation.rule, Rule::NothingFound);
    let answers = on_promised_stack(move || answers(image, deepest));
    let (no_editor, refused) = (Err(Refusal::NoEditor), Err(Refusal::NotPermitted));
    assert_eq!(answers, [Ok(0), Ok(1), no_editor, refused, refused]);
}

/// Under a role there are two searches: one for the asker, one for the role's grantor. He owns the
/// item, and without an owner line and a line of his own he has what his groups have.
#[test]
fn under_a_role() {
    let grant = |asker: u32| vec![[asker, 7, asker - 1, asker - 1, ALL]];
    let line_at_the_top = || vec![[1, GROUP, 0, READ]];
    let many = chain(grant(1), line_at_the_top()).subjects.used() as u32;
    let (asker, grantor) = (many - 1, many - 2);
    let mut tables = chain(grant(asker), line_at_the_top());
    tables.items.rows[0][0] = grantor;
    let image = tables.image();
    let (set, explained) = on_promised_stack(move || {
        let (asker, role, item) = (Subject(asker), Role(7), Item(1));
        let set = dacm::permission_set(&image, asker, role, item);
        (set, dacm::explain(&image, asker, role, item))
    });
    assert_eq!(set, Ok(Privileges::READ));
    let explanation = explained.expect("subject and item are in use");
    assert_eq!(explanation.rule, Rule::GroupLine(Subject::CUSTODIAN));
    assert_eq!(explanation.role_set, Privileges::READ);
}

/// Steps are counted in a loop, from the deepest subject up to the custodian, also for an explanation:
/// the deepest subject owns the item, and the role is granted over everybody.
#[test]
fn steps_from_the_deepest() {
    let mut tables = chain(vec![[1, 7, 0, 0, ALL]], vec![]);
    let deepest = tables.subjects.used() as u32 - 1;
    tables.items.rows[0][0] = deepest;
    let image = tables.image();
    let (steps, explained) = on_promised_stack(move || {
        let steps = dacm::steps_up(&image, Subject(deepest), Subject::CUSTODIAN);
        (steps, dacm::explain(&image, Subject(1), Role(7), Item(1)))
    });
    assert_eq!(steps, Ok(Some(deepest)));
    let explanation = explained.expect("subject and item are in use");
    assert_eq!(explanation.steps, Some(deepest));
    assert_eq!(explanation.role_set, Privileges::ALL);
}

/// What a line of the first list gives is left on the last one too, through all folders.
#[test]
fn the_longest_chain_of_folders() {
    let mut tables = chain(vec![], vec![[1, EVERYONE, 0, EDIT_LIST | READ]]);
    tables.subjects.rows.truncate(3);
    tables.lines.spare = 1;
    add_folders(&mut tables);
    let last = tables.items.used() as u32;
    assert_eq!(last, 4_089, "the longest chain beside three subjects");
    let subject = Subject(2);
    let image = tables.image();
    let explained = Explained::on_way_up(image.clone(), subject, Item(last));
    assert_eq!(explained.folders, last - 1);
    assert_eq!(explained.shared, Privileges(EDIT_LIST | READ));
    let answers = on_promised_stack(move || answers_on(image, subject, Item(last)));
    let set = EDIT_LIST | READ;
    assert_eq!(answers, [Ok(set), Ok(3), Ok(1), Ok(0), Ok(0)]);
}

/// The own sets explained from an item up its folders.
struct Explained {
    folders: u32,
    shared: Privileges,
}

impl Explained {
    fn on_way_up(image: Vec<u8>, subject: Subject, item: Item) -> Explained {
        on_promised_stack(move || {
            let mut explained = Explained {
                folders: 0,
                shared: Privileges::ALL,
            };
            let mut item = item;
            loop {
                let next = dacm::explain(&image, subject, Role::NONE, item);
                let next = next.expect("subject and item are in use");
                explained.shared &= next.own_set();
                let Some(folder) = next.folder else {
                    return explained;
                };
                explained.folders += 1;
                item = folder;
            }
        })
    }
}

/// A search through many groups for each of many folders. The line for everyone gives something, so the
/// search goes on to the last folder.
#[test]
fn groups_and_folders() {
    let mut tables = lines_between_the_groups();
    let pairs = tables.lines.used() / 2;
    tables.subjects.rows.truncate(2 * pairs);
    tables.lines.rows.truncate(pairs);
    tables.lines.rows.push([1, EVERYONE, 0, READ]);
    add_folders(&mut tables);
    let last = Item(tables.items.used() as u32);
    let deepest = Subject(tables.subjects.used() as u32 - 2);
    let image = tables.image();
    let set = on_promised_stack(move || dacm::permission_set(&image, deepest, Role::NONE, last));
    assert_eq!(set, Ok(Privileges::READ));
}

/// The header promises the same stack.
#[test]
fn the_header_says_so() {
    let header = include_str!("../../include/dacm.h");
    let line = format!("#define DACM_STACK_BYTES {STACK_BYTES}\n");
    assert!(header.contains(&line), "{line}");
}
