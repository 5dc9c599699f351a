//! Folders, case by case, on the library, on the twin and on the yardstick.

mod support;
mod twin;
mod yardstick;

use support::answers::{accepted, answer, permission_set, refused, report};
use support::call::{Call, Counts};
use support::compare::compare;
use support::explanation::{Explanation, Question};
use support::sample::{sample, EVERYONE, ITSELF, OWNER};
use support::tables::{Table, Tables, FOLDER_APPLIES, IS_LIST, LOCKED};

const READ: u32 = 1;
const REPLACE: u32 = 2;
const ANNOTATE: u32 = 8;
const EDIT_LIST: u32 = 64;
const ALL: u32 = u32::MAX;

/// Flags of an item to which its folder applies.
const APPLIES: u32 = FOLDER_APPLIES;

/// Two subjects beside the custodian, and three lists, which have no list themselves: the first lets
/// subject 1 read and replace, the second read and annotate, the third replace and annotate. These items
/// come behind the lists, from number 4 on.
fn hall(items: &[[u32; 4]]) -> Tables {
    let list = [0, 0, IS_LIST, 0];
    Tables {
        subjects: with_spare(vec![[0, ALL, 0], [0, 127, 0], [0, 127, 0]]),
        lines: with_spare(vec![
            [1, ITSELF, 1, READ | REPLACE],
            [2, ITSELF, 1, READ | ANNOTATE],
            [3, ITSELF, 1, REPLACE | ANNOTATE],
        ]),
        items: with_spare([&[list; 3], items].concat()),
        ..Tables::default()
    }
}

fn with_spare<const FIELDS: usize>(rows: Vec<[u32; FIELDS]>) -> Table<FIELDS> {
    Table { rows, spare: 1 }
}

/// The permission set of subject 1 without a role.
fn set_on(tables: &Tables, item: u32) -> u32 {
    set_of(tables, 1, 0, item)
}

fn set_of(tables: &Tables, subject: u32, role: u32, item: u32) -> u32 {
    let (number, set) = permission_set(&mut tables.image(), subject, role, item);
    assert_eq!(number, 0, "({subject}, {role}, {item})");
    set
}

fn explain(tables: &Tables, subject: u32, role: u32, item: u32) -> Explanation {
    let call = Question::new(subject, role, item).call();
    let outcome = compare(&mut tables.image(), &call, "no seed");
    outcome.explanation.expect("it is an explanation")
}

fn check(tables: &Tables) -> (u32, u32) {
    answer(&mut tables.image(), Call::Check)
}

/// The sample with this row for item 3, which is in the middle.
fn with_item_3(row: [u32; 4]) -> Tables {
    let mut tables = sample();
    tables.items.rows[2] = row;
    tables
}

/// Whether the folder applies or not, and whether it is in use or not.
#[test]
fn a_folder_in_an_image_is_lower() {
    for flags in 0..8 {
        for folder in [1, 2] {
            assert_eq!(check(&with_item_3([4, 1, flags, folder])), accepted(0));
        }
        for folder in [3, 4, 5, 6, 1 << 31, u32::MAX - 1, u32::MAX] {
            assert_eq!(check(&with_item_3([4, 1, flags, folder])), refused(4));
        }
    }
    let mut tables = sample();
    tables.items.rows[0] = [1, 1, 1, 1];
    assert_eq!(
        check(&tables),
        refused(4),
        "the first item has no lower one"
    );
}

#[test]
fn a_folder_that_applies_in_an_image_is_there() {
    for flags in 0..8 {
        let answered = check(&with_item_3([4, 1, flags, 0]));
        match flags & FOLDER_APPLIES {
            0 => assert_eq!(answered, accepted(0)),
            _ => assert_eq!(answered, refused(4)),
        }
    }
}

#[test]
fn flags_in_an_image_are_below_8() {
    for flags in [8, 9, 12, 15, 16, 1 << 31, u32::MAX] {
        for folder in [0, 2] {
            assert_eq!(check(&with_item_3([4, 1, flags, folder])), refused(4));
        }
    }
}

/// Question 4 is asked after question 3 and before questions 5 to 7.
#[test]
fn a_bad_folder_and_other_faults() {
    let mut tables = with_item_3([4, 1, 0, 3]);
    tables.lines.rows[0] = [2, ITSELF, 4, 8];
    tables.grants.rows[0] = [4, 0, 2, 2, 3];
    assert_eq!(check(&tables), refused(4));
    tables.subjects.rows[0] = [0, 0, 0];
    assert_eq!(check(&tables), refused(3));
}

/// The last field of the last row, which is free.
#[test]
fn a_free_row_has_no_folder() {
    let mut image = sample().image();
    let last = image.len() - 4;
    image[last] = 1;
    assert_eq!(answer(&mut image, Call::Check), refused(7));
}

/// Five item rows of 12 bytes, as they once were, are no whole rows.
#[test]
fn rows_without_a_folder() {
    let mut image = sample().image();
    image.truncate(316);
    image[32..36].copy_from_slice(&316_u32.to_le_bytes());
    assert_eq!(answer(&mut image, Call::Check), refused(2));
}

/// Created by subject 1, which has the right, and has none on item 4.
fn create(list: u32, flags: u32, folder: u32) -> Call {
    create_by(1, list, flags, folder)
}

fn create_by(caller: u32, list: u32, flags: u32, folder: u32) -> Call {
    Call::CreateItem {
        caller,
        role: 0,
        list,
        flags,
        folder,
    }
}

fn on_sample(call: Call) -> (u32, u32) {
    answer(&mut sample().image(), call)
}

/// Any item in use, whatever its flags, and without a right on it.
#[test]
fn created_in_a_folder() {
    for folder in 1..=4 {
        for flags in 0..8 {
            let mut image = sample().image();
            let created = answer(&mut image, create(1, flags, folder));
            assert_eq!(created, accepted(5));
            let mut expected = sample();
            expected.items.rows.push([1, 1, flags, folder]);
            expected.items.spare = 0;
            assert_eq!(image, expected.image(), "flags {flags}, folder {folder}");
        }
    }
}

/// Item 5 would be the new one itself.
#[test]
fn a_folder_that_is_not_in_use() {
    for folder in [5, 6, 1 << 31, u32::MAX] {
        for flags in [0, 3, 4, 7] {
            assert_eq!(on_sample(create(1, flags, folder)), refused(12));
        }
    }
}

/// The folder is asked about after the caller, and before list, flags, right and free row.
#[test]
fn the_order_of_the_questions_for_a_folder() {
    let unknown = 6;
    assert_eq!(on_sample(create_by(unknown, 2, 8, 5)), refused(10));
    assert_eq!(on_sample(create_by(4, 2, 8, 5)), refused(12));
    assert_eq!(on_sample(create_by(4, 2, 8, 4)), refused(13));
    assert_eq!(on_sample(create_by(4, 1, 8, 4)), refused(14));
    assert_eq!(on_sample(create_by(4, 1, 4, 4)), refused(15));
    let mut full = sample();
    full.items.spare = 0;
    assert_eq!(answer(&mut full.image(), create(1, 4, 4)), refused(19));
    assert_eq!(answer(&mut full.image(), create(1, 4, 5)), refused(12));
}

/// Folder 0 is no item, so question 12 passes it. The flag that needs a folder is asked about with the
/// other flags.
#[test]
fn no_folder_to_apply() {
    for flags in 4..8 {
        assert_eq!(on_sample(create(1, flags, 0)), refused(14));
        assert_eq!(on_sample(create(2, flags, 0)), refused(13));
        assert_eq!(on_sample(create_by(4, 1, flags, 0)), refused(14));
    }
    for flags in 0..4 {
        assert_eq!(on_sample(create(1, flags, 0)), accepted(5));
    }
}

#[test]
fn flags_of_a_new_item_are_below_8() {
    for flags in [8, 9, 12, 15, 1 << 31, u32::MAX] {
        for folder in [0, 1, 4] {
            assert_eq!(on_sample(create(1, flags, folder)), refused(14));
        }
    }
}

#[test]
fn what_is_bound_or_handed_over_stays_in_its_folder() {
    for flags in [0, LOCKED, APPLIES, APPLIES | LOCKED] {
        let before = with_item_3([4, 1, flags, 2]);
        let bind = Call::Bind {
            caller: 0,
            item: 3,
            list: 0,
        };
        let mut image = before.image();
        assert_eq!(answer(&mut image, bind), accepted(0));
        assert_eq!(image, with_item_3([4, 0, flags, 2]).image());
        let hand_over = Call::HandOver {
            caller: 0,
            item: 3,
            owner: 5,
        };
        assert_eq!(answer(&mut image, hand_over), accepted(0));
        assert_eq!(image, with_item_3([5, 0, flags, 2]).image());
    }
}

/// By the lists the item gives to read and annotate, and its folder to read and replace.
#[test]
fn what_both_give_and_not_what_one_gives() {
    let tables = hall(&[[0, 1, 0, 0], [0, 2, APPLIES, 4]]);
    assert_eq!(set_on(&tables, 4), READ | REPLACE);
    assert_eq!(set_on(&tables, 5), READ);
    let other_way_round = hall(&[[0, 2, 0, 0], [0, 1, APPLIES, 4]]);
    assert_eq!(set_on(&other_way_round, 5), READ);
}

#[test]
fn a_folder_that_does_not_apply() {
    let tables = hall(&[[0, 0, 0, 0], [0, 2, 0, 4], [0, 2, LOCKED, 4]]);
    assert_eq!(set_on(&tables, 5), READ | ANNOTATE);
    assert_eq!(set_on(&tables, 6), READ | ANNOTATE);
}

/// The own set of the folder in the middle has annotate too, which its permission set has not.
#[test]
fn the_folders_permission_set_and_not_its_own_set() {
    let tables = hall(&[[0, 1, 0, 0], [0, 2, APPLIES, 4], [0, 3, APPLIES, 5]]);
    let own_sets = [4, 5, 6].map(|item| explain(&tables, 1, 0, item).own_set());
    assert_eq!(
        own_sets,
        [READ | REPLACE, READ | ANNOTATE, REPLACE | ANNOTATE]
    );
    assert_eq!([4, 5, 6].map(|item| set_on(&tables, item)), [3, READ, 0]);
}

/// Item 4 would leave nothing.
#[test]
fn the_way_up_ends_where_a_folder_does_not_apply() {
    let tables = hall(&[[0, 0, 0, 0], [0, 2, 0, 4], [0, 3, APPLIES, 5]]);
    assert_eq!(set_on(&tables, 6), ANNOTATE);
    assert_eq!(explain(&tables, 1, 0, 6).folder, 5);
    assert_eq!(explain(&tables, 1, 0, 5).folder, 0);
}

/// Four levels, and two items in one folder.
#[test]
fn a_tree_of_folders() {
    let tables = hall(&[
        [0, 2, 0, 0],
        [0, 2, APPLIES, 4],
        [0, 2, APPLIES, 5],
        [0, 2, APPLIES, 6],
        [0, 1, APPLIES, 6],
    ]);
    assert_eq!(set_on(&tables, 7), READ | ANNOTATE);
    assert_eq!(set_on(&tables, 8), READ);
    let mut bound = tables.image();
    let bind = Call::Bind {
        caller: 0,
        item: 4,
        list: 3,
    };
    assert_eq!(answer(&mut bound, bind), accepted(0));
    assert_eq!(permission_set(&mut bound, 1, 0, 7), accepted(ANNOTATE));
    assert_eq!(permission_set(&mut bound, 1, 0, 8), accepted(0));
}

/// It gives nobody anything, but to the custodian, who has all on every item.
#[test]
fn a_folder_without_a_list() {
    let tables = hall(&[[1, 0, 0, 0], [1, 1, APPLIES, 4]]);
    assert_eq!(set_on(&tables, 5), 0);
    assert_eq!(set_of(&tables, 0, 0, 5), ALL);
    assert_eq!(set_of(&tables, 0, 7, 5), ALL);
}

/// An item's list, its folder and its own number are three things. A list applies as a folder by the list
/// that it has itself, and not by its lines.
#[test]
fn a_list_as_a_folder() {
    let mut tables = hall(&[[0, 1, APPLIES, 1]]);
    assert_eq!(set_on(&tables, 4), 0, "list 1 has no list");
    tables.items.rows[0] = [0, 1, IS_LIST, 0];
    assert_eq!(set_on(&tables, 4), READ | REPLACE);
    tables.items.rows[0] = [0, 2, IS_LIST, 0];
    assert_eq!(set_on(&tables, 4), READ);
}

/// The owner line is for the owner of the item that it is looked up for.
#[test]
fn owners_of_folders() {
    let mut tables = hall(&[[1, 1, 0, 0], [2, 1, APPLIES, 4]]);
    tables.lines.rows = vec![
        [1, ITSELF, 1, READ | REPLACE],
        [1, OWNER, 0, READ | ANNOTATE],
    ];
    assert_eq!(set_on(&tables, 4), READ | ANNOTATE);
    assert_eq!(explain(&tables, 1, 0, 5).own_set(), READ | REPLACE);
    assert_eq!(set_on(&tables, 5), READ);
    assert_eq!(set_of(&tables, 2, 0, 5), 0, "not the owner of the folder");
    tables.items.rows[3] = [2, 1, 0, 0];
    assert_eq!(set_of(&tables, 2, 0, 5), READ | ANNOTATE);
    assert_eq!(set_on(&tables, 5), READ | REPLACE);
}

/// The grant's domain is subject 2. The role counts on an item whose owner is in its tree, and so for
/// each folder by its own owner.
#[test]
fn a_role_counts_on_each_item_by_its_owner() {
    let in_folder = |owner, folder| {
        let mut tables = sample();
        tables.items.rows.push([owner, 1, APPLIES, folder]);
        tables
    };
    let (inside, below, outside) = (2, 5, 1);
    assert_eq!(set_of(&in_folder(inside, 2), 4, 7, 5), 11);
    assert_eq!(set_of(&in_folder(below, 2), 4, 7, 5), 11);
    assert_eq!(set_of(&in_folder(outside, 2), 4, 7, 5), 9);
    // Subject 1 owns item 1, which applies as the folder here.
    assert_eq!(explain(&in_folder(inside, 1), 4, 7, 5).own_set(), 11);
    assert_eq!(set_of(&in_folder(inside, 1), 4, 7, 5), 9);
    // Without the role there is nothing to cut.
    assert_eq!(set_of(&in_folder(inside, 1), 4, 0, 5), 9);
}

/// Above twenty folders that all give the same under role 7, one that gives less. The owner line gives
/// less than the groups here, also to the grantor of the role, subject 2.
#[test]
fn a_folder_far_up() {
    let far_up = |row| {
        let mut tables = sample();
        tables.lines.rows[3] = [1, OWNER, 0, READ];
        tables.items.rows.push(row);
        let below = (5..25).map(|folder| [5, 1, APPLIES, folder]);
        tables.items.rows.extend(below);
        set_of(&tables, 4, 7, 25)
    };
    assert_eq!(far_up([5, 1, 0, 0]), 11, "as the others");
    assert_eq!(far_up([4, 1, 0, 0]), 1, "the asker owns it");
    assert_eq!(far_up([2, 1, 0, 0]), 9, "the grantor owns it");
    assert_eq!(far_up([1, 1, 0, 0]), 9, "its owner is not in the domain");
    assert_eq!(far_up([5, 0, 0, 0]), 0, "it has no list");
}

/// The operation set is the same on every item and in no folder.
#[test]
fn operations_are_not_cut() {
    let tables = hall(&[[0, 0, 0, 0], [0, 1, APPLIES, 4]]);
    let operations = Call::OperationSet {
        subject: 1,
        role: 0,
    };
    assert_eq!(answer(&mut tables.image(), operations), accepted(127));
    let explanation = explain(&tables, 1, 0, 5);
    assert_eq!(explanation.operations, 127);
    assert_eq!(explanation.rule_set, READ | REPLACE);
    assert_eq!(explanation.folder, 4);
    assert_eq!(set_on(&tables, 5), 0);
}

/// Only where it applies, and for every asker.
#[test]
fn the_folder_of_an_explanation() {
    for subject in 0..6 {
        for (flags, folder, explained) in [(0, 0, 0), (0, 2, 0), (3, 2, 0), (4, 2, 2), (7, 1, 1)] {
            let tables = with_item_3([4, 1, flags, folder]);
            assert_eq!(explain(&tables, subject, 0, 3).folder, explained);
            assert_eq!(explain(&tables, subject, 7, 3).folder, explained);
        }
    }
    let tables = with_item_3([4, 1, APPLIES, 2]);
    assert_eq!(explain(&tables, 6, 0, 3), Explanation::refused(10));
    assert_eq!(explain(&tables, 1, 0, 5), Explanation::refused(12));
}

/// Subject 1 may edit by list 1. The list in question is item 5, under list 1 and in this folder.
fn list_in_folder(flags: u32, folder: u32) -> Tables {
    let mut tables = hall(&[[0, 0, 0, 0], [0, 1, flags | IS_LIST, folder]]);
    tables.lines.rows = vec![
        [1, ITSELF, 1, EDIT_LIST],
        [2, ITSELF, 2, EDIT_LIST],
        [5, ITSELF, 2, READ],
    ];
    tables
}

fn set_line(list: u32) -> Call {
    Call::SetLine {
        caller: 1,
        role: 0,
        list,
        kind: EVERYONE,
        subject: 0,
        privileges: READ,
    }
}

fn remove_line(list: u32) -> Call {
    Call::RemoveLine {
        caller: 1,
        role: 0,
        list,
        kind: ITSELF,
        subject: 2,
    }
}

#[test]
fn who_may_edit_a_list_in_a_folder() {
    let cases = [
        (0, accepted(0)),
        (LOCKED, accepted(0)),
        (APPLIES, refused(15)),
    ];
    for (flags, expected) in cases {
        let tables = list_in_folder(flags, 4);
        assert_eq!(answer(&mut tables.image(), set_line(5)), expected);
        assert_eq!(answer(&mut tables.image(), remove_line(5)), expected);
    }
    let mut tables = list_in_folder(APPLIES, 4);
    tables.items.rows[3] = [0, 1, 0, 0];
    assert_eq!(answer(&mut tables.image(), set_line(5)), accepted(0));
    assert_eq!(answer(&mut tables.image(), remove_line(5)), accepted(0));
}

/// The right is asked for before the row to be removed is looked for.
#[test]
fn no_right_through_a_folder_and_no_row() {
    let mut tables = list_in_folder(APPLIES, 4);
    tables.lines.rows.pop();
    assert_eq!(answer(&mut tables.image(), remove_line(5)), refused(15));
    tables.items.rows[3] = [0, 1, 0, 0];
    assert_eq!(answer(&mut tables.image(), remove_line(5)), refused(17));
}

fn editor_of(tables: &Tables, list: u32) -> (u32, u32) {
    answer(&mut tables.image(), Call::FindEditor { list })
}

/// Both may edit by list 1, and by list 2 only subject 2 may.
#[test]
fn the_editor_of_a_list_in_a_folder() {
    let tables = |flags, lists_folder| {
        let mut tables = list_in_folder(flags, 4);
        tables.items.rows[3] = [0, lists_folder, 0, 0];
        tables.lines.rows.insert(1, [1, ITSELF, 2, EDIT_LIST]);
        tables
    };
    assert_eq!(editor_of(&tables(0, 2), 5), accepted(1));
    assert_eq!(editor_of(&tables(APPLIES, 1), 5), accepted(1));
    assert_eq!(editor_of(&tables(APPLIES, 2), 5), accepted(2));
    assert_eq!(editor_of(&tables(APPLIES, 3), 5), refused(20));
    assert_eq!(editor_of(&tables(APPLIES, 0), 5), refused(20));
    assert_eq!(editor_of(&tables(APPLIES, 2), 4), refused(13));
}

/// The custodian is counted everywhere. The line for everyone lets both read item 4.
#[test]
fn counts_in_a_folder() {
    let mut tables = hall(&[[0, 1, 0, 0], [0, 2, APPLIES, 4], [0, 2, 0, 4]]);
    tables.lines.rows.insert(1, [1, EVERYONE, 0, READ]);
    tables.lines.rows.insert(3, [2, ITSELF, 2, READ | ANNOTATE]);
    let counted = |item| {
        let entries = Counts::POSITIONS;
        let call = Call::CountHolders { item, entries };
        let outcome = compare(&mut tables.image(), &call, "no seed");
        let counts = outcome.counts.expect("entries were lent");
        [0, 1, 2, 3].map(|position| counts.lent()[position])
    };
    assert_eq!(counted(4), [3, 2, 1, 1]);
    assert_eq!(counted(5), [3, 1, 1, 1]);
    assert_eq!(counted(6), [3, 1, 1, 3]);
}

#[test]
fn the_report_with_folders() {
    let mut tables = hall(&[[0, 1, 0, 0], [0, 2, APPLIES, 4], [0, 3, APPLIES, 5]]);
    tables.items.rows[0] = [0, 1, IS_LIST, 0];
    tables.items.rows[1] = [0, 2, IS_LIST | APPLIES, 1];
    tables.items.rows[2] = [0, 2, IS_LIST, 1];
    let sets = [
        [ALL, ALL, ALL, ALL, ALL, ALL],
        [3, 1, 9, 3, 1, 0],
        [0, 0, 0, 0, 0, 0],
    ];
    let mut expected = String::from("subject item set\n");
    for (subject, sets) in sets.iter().enumerate() {
        for (number, set) in (1..).zip(sets) {
            expected += &format!("{subject} {number} {set}\n");
        }
    }
    assert_eq!(report(&tables.image()), expected);
}

/// The folder's owner binds the folder to no list, and with that changes what subject 2 may do with the
/// item in it. The same call changes nothing where the folder does not apply.
#[test]
fn the_owner_of_a_folder_changes_a_set() {
    let unbind = Call::Bind {
        caller: 1,
        item: 1,
        list: 0,
    };
    for (flags, after) in [(LOCKED | APPLIES, 0), (LOCKED, 121)] {
        let tables = Tables {
            subjects: with_spare(vec![[0, ALL, 0], [0, 127, 0], [0, 127, 0]]),
            lines: with_spare(vec![[3, ITSELF, 2, 121]]),
            items: with_spare(vec![
                [1, 3, IS_LIST, 0],
                [0, 3, flags, 1],
                [0, 0, IS_LIST, 0],
            ]),
            ..Tables::default()
        };
        let mut image = tables.image();
        assert_eq!(permission_set(&mut image, 2, 0, 2), accepted(121));
        assert_eq!(answer(&mut image, unbind), accepted(0));
        assert_eq!(permission_set(&mut image, 2, 0, 2), accepted(after));
    }
}
