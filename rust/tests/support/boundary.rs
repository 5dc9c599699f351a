//! Images at the edges of what is accepted.

use super::libraries::Size;
use super::random::Random;
use super::sample::{sample, EVERYONE, GROUP};
use super::tables::{set_field, Table, Tables, FOLDER_APPLIES, IS_LIST};
use crate::twin;

const LENGTHS: [usize; 8] = [0, 35, 36, 37, 48, 65_535, 65_536, 65_537];

pub struct Boundary {
    pub name: String,
    pub image: Vec<u8>,
}

/// Tables to choose arguments from: those of the image, or the sample's if it is not accepted.
pub fn telling_tables(image: &[u8]) -> Tables {
    match twin::check(image).number {
        0 => Tables::read(image),
        _ => sample(),
    }
}

pub fn boundary_images() -> Vec<Boundary> {
    let mut images = vec![
        named("the sample", sample().image()),
        named("the custodian only", custodian_only(0).image()),
        named("the custodian and a zero row", custodian_only(1).image()),
        named("no subject in use", no_subject()),
        named("every table full", every_table_full().image()),
        named("a chain of subjects", chain().image()),
        named("a chain of folders", folders().image()),
    ];
    images.extend(LENGTHS.into_iter().flat_map(of_length));
    images.extend(headers_alone());
    images.extend((0..4).flat_map(one_row_more_than_there_is));
    let random = &mut Random::new(1);
    let longest = Size::longest(random).library(random);
    images.push(named("the longest", longest.image()));
    images
}

fn named(name: impl Into<String>, image: Vec<u8>) -> Boundary {
    Boundary {
        name: name.into(),
        image,
    }
}

/// 48 bytes, and 12 more for each free row.
pub fn custodian_only(spare: usize) -> Tables {
    Tables {
        subjects: Table {
            rows: vec![[0, u32::MAX, 0]],
            spare,
        },
        ..Tables::default()
    }
}

/// A zero row where the custodian's row would be.
fn no_subject() -> Vec<u8> {
    let mut tables = custodian_only(1);
    tables.subjects.rows.clear();
    tables.image()
}

fn every_table_full() -> Tables {
    let mut tables = sample();
    tables.subjects.spare = 0;
    tables.grants.spare = 0;
    tables.lines.spare = 0;
    tables.items.spare = 0;
    tables
}

/// A chain of 5,450 subjects, each below the one before. The only group line is the custodian's,
/// which a search finds last.
fn chain() -> Tables {
    let below = (0..5_449).map(|parent| [parent, 127, 0]);
    Tables {
        subjects: Table {
            rows: [[0, u32::MAX, 0]].into_iter().chain(below).collect(),
            spare: 0,
        },
        grants: Table {
            rows: vec![[5_449, 7, 5_000, 5_448, 127]],
            spare: 0,
        },
        lines: Table {
            rows: vec![[1, GROUP, 0, 64]],
            spare: 0,
        },
        items: Table {
            rows: vec![[5_449, 1, 1, 0]],
            spare: 0,
        },
    }
}

/// A chain of 4,088 items, each in the one before, which applies as its folder. All are lists, and the
/// first is the list of all. Each in its turn is owned by one of the three subjects.
fn folders() -> Tables {
    let item = |number: u32| match number {
        1 => [1, 1, IS_LIST, 0],
        _ => [number % 3, 1, IS_LIST | FOLDER_APPLIES, number - 1],
    };
    Tables {
        subjects: Table {
            rows: vec![[0, u32::MAX, 0], [0, 127, 0], [1, 127, 0]],
            spare: 0,
        },
        grants: Table {
            rows: vec![[2, 7, 1, 1, 127]],
            spare: 0,
        },
        lines: Table {
            rows: vec![[1, GROUP, 1, 67], [1, EVERYONE, 0, 65]],
            spare: 0,
        },
        items: Table {
            rows: (1..=4_088).map(item).collect(),
            spare: 0,
        },
    }
}

/// Images of this length: the same byte throughout, and the sample cut or made longer, with its old
/// total and with this length as its total.
fn of_length(length: usize) -> Vec<Boundary> {
    let mut images = Vec::new();
    for filler in [0, 0xff] {
        images.push(named(
            format!("{length} bytes of {filler}"),
            vec![filler; length],
        ));
    }
    let mut cut = sample().image();
    cut.resize(length, 0);
    images.push(named(format!("the sample as {length} bytes"), cut.clone()));
    if length >= 36 {
        set_field(&mut cut, 8, length as u32);
        images.push(named(format!("the sample as recorded {length}"), cut));
    }
    images
}

/// Images of 36 bytes: a header without tables.
fn headers_alone() -> Vec<Boundary> {
    let used = [0, 1, 1 << 30, u32::MAX];
    let header = |used| {
        let mut image = Tables::default().image();
        set_field(&mut image, 0, used);
        named(format!("a header with {used} subjects"), image)
    };
    used.into_iter().map(header).collect()
}

/// The sample with more used rows in the header than the table's capacity: one more, and numbers so
/// large that their product with the bytes of a row can wrap around in 32 bits.
fn one_row_more_than_there_is(table: usize) -> Vec<Boundary> {
    let capacity = [7, 2, 6, 5][table];
    let more = [1, 1 << 28, 1 << 30, u32::MAX - capacity];
    let with_used = |more| {
        let mut image = sample().image();
        set_field(&mut image, 2 * table, capacity + more);
        named(format!("table {table} with {more} rows more"), image)
    };
    more.into_iter().map(with_used).collect()
}
