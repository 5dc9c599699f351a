//! The tables of an image as rows: the sample workshop, and random images read a second way.

mod support;
mod twin;
mod yardstick;

use dacm::{
    Capacities, Flags, GrantRow, Item, ItemRow, Kind, LineRow, Privileges, Refusal, Role, Row,
    Rows, Subject, SubjectRow,
};
use std::fmt::Debug;
use support::damage::damage;
use support::libraries::Size;
use support::random::Random;
use support::rounds;
use support::sample::sample;
use support::tables::{Table, Tables};

/// The numbers in a row, in the order of its fields in the image.
trait Numbers<const FIELDS: usize>: Row {
    fn numbers(&self) -> [u32; FIELDS];
}

impl Numbers<3> for SubjectRow {
    fn numbers(&self) -> [u32; 3] {
        [self.parent.0, self.privileges.0, self.creator.0]
    }
}

impl Numbers<5> for GrantRow {
    fn numbers(&self) -> [u32; 5] {
        [
            self.receiver.0,
            self.role.0,
            self.grantor.0,
            self.domain.0,
            self.privileges.0,
        ]
    }
}

impl Numbers<4> for LineRow {
    fn numbers(&self) -> [u32; 4] {
        [self.list.0, self.kind.0, self.subject.0, self.privileges.0]
    }
}

impl Numbers<4> for ItemRow {
    fn numbers(&self) -> [u32; 4] {
        [self.owner.0, self.list.0, self.flags.0, self.folder.0]
    }
}

fn line(kind: Kind, subject: u32, privileges: Privileges) -> LineRow {
    LineRow {
        list: Item(1),
        kind,
        subject: Subject(subject),
        privileges,
    }
}

#[test]
fn the_rows_of_the_sample() {
    let image = sample().image();
    let tables = dacm::Tables::open(&image).expect("the sample is accepted");
    let technician = SubjectRow {
        parent: Subject(3),
        privileges: Privileges::READ | Privileges::ANNOTATE,
        creator: Subject::CUSTODIAN,
    };
    let custodian = SubjectRow {
        parent: Subject::CUSTODIAN,
        privileges: Privileges::ALL,
        creator: Subject::CUSTODIAN,
    };
    let grant = GrantRow {
        receiver: Subject(4),
        role: Role(7),
        grantor: Subject(2),
        domain: Subject(2),
        privileges: Privileges::READ | Privileges::REPLACE,
    };
    let list = ItemRow {
        owner: Subject(1),
        list: Item(1),
        flags: Flags::IS_LIST,
        folder: Item::NONE,
    };
    assert_eq!(tables.subject(Subject::CUSTODIAN), Some(custodian));
    assert_eq!(tables.subject(Subject(4)), Some(technician));
    assert_eq!(tables.grants().iter().collect::<Vec<_>>(), [grant]);
    assert_eq!(tables.item(Item(1)), Some(list));
    assert_eq!(
        tables.item(Item(4)).map(|row| row.list),
        Some(Item::NONE),
        "item 4 has no list"
    );
}

/// The folder is shown whether it applies or not.
#[test]
fn folders() {
    let mut tables = sample();
    tables.items.rows[2] = [4, 1, 0, 2];
    tables.items.rows[3] = [2, 0, 6, 3];
    let image = tables.image();
    let tables = dacm::Tables::open(&image).expect("the image is accepted");
    let folders: Vec<Item> = tables.items().iter().map(|row| row.folder).collect();
    assert_eq!(folders, [Item::NONE, Item::NONE, Item(2), Item(3)]);
    let applies = |row: &ItemRow| row.flags.contains(Flags::FOLDER_APPLIES);
    assert_eq!(tables.items().iter().filter(applies).count(), 1);
    let flags = tables.item(Item(4)).map(|row| row.flags);
    assert_eq!(flags, Some(Flags::LOCKED | Flags::FOLDER_APPLIES));
}

#[test]
fn numbers_that_are_not_in_use() {
    let image = sample().image();
    let tables = dacm::Tables::open(&image).expect("the sample is accepted");
    for subject in [6, 7, u32::MAX] {
        assert_eq!(tables.subject(Subject(subject)), None, "{subject}");
    }
    for item in [0, 5, 6, u32::MAX] {
        assert_eq!(tables.item(Item(item)), None, "{item}");
    }
}

#[test]
fn the_capacities_of_the_sample() {
    let image = sample().image();
    let tables = dacm::Tables::open(&image).expect("the sample is accepted");
    let capacities = Capacities {
        subjects: 7,
        grants: 2,
        lines: 6,
        items: 5,
    };
    assert_eq!(tables.capacities(), capacities);
    let used = [
        tables.subjects().len(),
        tables.grants().len(),
        tables.lines().len(),
        tables.items().len(),
    ];
    assert_eq!(used, [6, 1, 5, 4]);
}

#[test]
fn the_list_of_the_sample() {
    let image = sample().image();
    let tables = dacm::Tables::open(&image).expect("the sample is accepted");
    let lines = tables.lines_of(Item(1)).expect("item 1 is a list");
    let wanted = [
        line(Kind::ITSELF, 4, Privileges::ANNOTATE),
        line(Kind::ITSELF, 5, Privileges::NONE),
        line(Kind::GROUP, 1, Privileges(3)),
        line(Kind::OWNER, 0, Privileges(7)),
        line(Kind::EVERYONE, 0, Privileges::READ),
    ];
    assert!(lines.iter().eq(wanted), "{lines:?}");
    assert_eq!(lines, tables.lines());
    for other in [0, 2, 5] {
        assert_eq!(tables.lines_of(Item(other)), Err(Refusal::NotAList));
    }
}

#[test]
fn a_list_without_lines_has_no_rows() {
    let mut tables = sample();
    tables.items.rows[3] = [2, 0, 1, 0];
    let image = tables.image();
    let tables = dacm::Tables::open(&image).expect("the image is accepted");
    let lines = tables.lines_of(Item(4)).expect("item 4 is a list");
    assert!(lines.is_empty());
    assert_eq!(lines.iter().next(), None);
}

/// Rows outlive the tables that they came from. Only the image has to stay.
#[test]
fn rows_are_lent_by_the_image() {
    fn lists_of(image: &[u8]) -> impl Iterator<Item = ItemRow> + '_ {
        let tables = dacm::Tables::open(image).expect("the sample is accepted");
        let is_list = |row: &ItemRow| row.flags.contains(Flags::IS_LIST);
        tables.items().into_iter().filter(is_list)
    }
    assert_eq!(lists_of(&sample().image()).count(), 1);
}

#[test]
fn random_images() {
    images_read_twice("a small library", rounds(5_000), Size::small);
    images_read_twice("a larger library", rounds(30), Size::larger);
    images_read_twice("the longest library", rounds(10), Size::longest);
}

fn images_read_twice(name: &str, count: u64, size: impl Fn(&mut Random) -> Size) {
    for seed in 0..count {
        let random = &mut Random::new(seed);
        let image = size(random).library(random).image();
        assert_read_the_same(&image, &format!("{name}, seed {seed}"));
    }
}

/// The view shows what the tests' own reading of the image finds.
fn assert_read_the_same(image: &[u8], case: &str) {
    let shown = dacm::Tables::open(image).expect("the image is accepted");
    let read = Tables::read(image);
    let capacities = shown.capacities();
    assert_same_table(shown.subjects(), capacities.subjects, &read.subjects, case);
    assert_same_table(shown.grants(), capacities.grants, &read.grants, case);
    assert_same_table(shown.lines(), capacities.lines, &read.lines, case);
    assert_same_table(shown.items(), capacities.items, &read.items, case);
    assert_same_numbers(&shown, &read, case);
    assert_same_lists(&shown, &read, case);
}

fn assert_same_table<R: Numbers<FIELDS>, const FIELDS: usize>(
    shown: Rows<'_, R>,
    capacity: usize,
    read: &Table<FIELDS>,
    case: &str,
) {
    assert_eq!(capacity, read.used() + read.spare, "{case}");
    assert_same_rows(shown, &read.rows, case);
}

/// In every way in which rows can be gone through.
fn assert_same_rows<R: Numbers<FIELDS>, const FIELDS: usize>(
    shown: Rows<'_, R>,
    read: &[[u32; FIELDS]],
    case: &str,
) {
    let numbers = |row: R| row.numbers();
    assert_eq!(shown.len(), read.len(), "{case}");
    assert_eq!(shown.is_empty(), read.is_empty(), "{case}");
    assert_eq!(shown.iter().len(), read.len(), "{case}");
    assert!(shown.iter().map(numbers).eq(read.iter().copied()), "{case}");
    let backwards = shown.into_iter().rev().map(numbers);
    assert!(backwards.eq(read.iter().rev().copied()), "{case}");
    for (index, row) in read.iter().enumerate() {
        assert_eq!(shown.get(index).map(numbers), Some(*row), "{case}");
    }
    for index in [read.len(), read.len() + 1, usize::MAX] {
        assert_eq!(shown.get(index), None, "{case}");
    }
}

/// Every subject and every item by its number, and numbers one below and one above.
fn assert_same_numbers(shown: &dacm::Tables, read: &Tables, case: &str) {
    let subjects = &read.subjects.rows;
    for (number, index) in (0..).zip(0..=subjects.len()) {
        let row = shown.subject(Subject(number)).map(|row| row.numbers());
        assert_eq!(row, subjects.get(index).copied(), "{case}");
    }
    let items = &read.items.rows;
    assert_eq!(shown.item(Item(0)), None, "{case}");
    for (number, index) in (1..).zip(0..=items.len()) {
        let row = shown.item(Item(number)).map(|row| row.numbers());
        assert_eq!(row, items.get(index).copied(), "{case}");
    }
}

/// The lines of some items, and whether these are lists at all.
fn assert_same_lists(shown: &dacm::Tables, read: &Tables, case: &str) {
    let lists = read.lists();
    for number in 0..=read.items.used().min(50) as u32 + 1 {
        let lines = shown.lines_of(Item(number));
        if !lists.contains(&number) {
            assert_eq!(lines, Err(Refusal::NotAList), "{case}");
            continue;
        }
        let rows = read.lines.rows.iter().copied();
        let of_list: Vec<[u32; 4]> = rows.filter(|[list, ..]| *list == number).collect();
        assert_same_rows(lines.expect("it is a list"), &of_list, case);
    }
}

/// What is not accepted is not opened, with the same refusal.
#[test]
fn damaged_images() {
    for seed in 0..rounds(20_000) {
        let random = &mut Random::new(seed);
        let mut image = Size::small(random).library(random).image();
        damage(random, &mut image);
        let opened = dacm::Tables::open(&image).map(|_| ());
        assert_eq!(opened, dacm::check(&image), "seed {seed}");
        if opened.is_ok() {
            assert_read_the_same(&image, &format!("a damaged library, seed {seed}"));
        }
    }
}

#[test]
fn from_both_ends_and_with_steps() {
    let image = sample().image();
    let tables = dacm::Tables::open(&image).expect("the sample is accepted");
    let mut rows = tables.subjects().iter();
    assert_eq!(rows.next().map(|row| row.privileges.0), Some(u32::MAX));
    assert_eq!(rows.next_back().map(|row| row.privileges.0), Some(3));
    assert_eq!(rows.len(), 4);
    let mut copy = rows.clone();
    assert_eq!(rows.nth(1).map(|row| row.privileges.0), Some(91));
    assert_eq!(copy.nth_back(1).map(|row| row.privileges.0), Some(73));
    assert_eq!((rows.len(), copy.len()), (2, 2));
    assert_eq!(rows.nth(2), None);
    assert_eq!((rows.len(), rows.next(), rows.next_back()), (0, None, None));
}

/// A view prints its rows, not the bytes of the image.
#[test]
fn debug_shows_the_rows() {
    let image = sample().image();
    let tables = dacm::Tables::open(&image).expect("the sample is accepted");
    let grants = "[GrantRow { receiver: Subject(4), role: Role(7), grantor: Subject(2), \
                  domain: Subject(2), privileges: Privileges(3) }]";
    assert_eq!(format!("{:?}", tables.grants()), grants);
    assert_eq!(format!("{:?}", tables.grants().iter()), grants);
    assert!(format!("{tables:?}").contains(grants));
}

/// What a host may rely on of the types themselves.
#[test]
fn views_can_be_copied_and_sent() {
    fn assert_plain<T: Copy + Debug + Send + Sync>() {}
    assert_plain::<dacm::Tables>();
    assert_plain::<Rows<SubjectRow>>();
    assert_plain::<LineRow>();
}
