//! Empty images made from capacities: their bytes, their limits, and that they can be filled.

mod support;
mod twin;
mod yardstick;

use dacm::{Capacities, Flags, Item, Kind, Privileges, Refusal, Role, Subject};
use support::random::Random;
use support::rounds;
use support::tables::{Table, Tables};

const LONGEST: usize = 65_536;

/// In the order of the tables in an image.
fn capacities([subjects, grants, lines, items]: [usize; 4]) -> Capacities {
    Capacities {
        subjects,
        grants,
        lines,
        items,
    }
}

/// The same image, made from rows.
fn made_from_rows(capacities: Capacities) -> Vec<u8> {
    let tables = Tables {
        subjects: Table {
            rows: vec![[0, u32::MAX, 0]],
            spare: capacities.subjects - 1,
        },
        grants: free_rows(capacities.grants),
        lines: free_rows(capacities.lines),
        items: free_rows(capacities.items),
    };
    tables.image()
}

fn free_rows<const FIELDS: usize>(spare: usize) -> Table<FIELDS> {
    let rows = Vec::new();
    Table { rows, spare }
}

/// The image has the bytes that it should have, is accepted, and has these capacities.
fn assert_makes_its_image(capacities: Capacities) {
    let image = capacities.empty_image().expect("it is not too long");
    assert_eq!(capacities.image_bytes(), Ok(image.len()), "{capacities:?}");
    assert!(image == made_from_rows(capacities), "{capacities:?}");
    assert_eq!(twin::check(&image).number, 0, "{capacities:?}");
    let tables = dacm::Tables::open(&image).expect("it is accepted");
    assert_eq!(tables.capacities(), capacities);
}

fn assert_refused(capacities: Capacities, refusal: Refusal) {
    assert_eq!(capacities.image_bytes(), Err(refusal), "{capacities:?}");
    assert_eq!(capacities.empty_image(), Err(refusal), "{capacities:?}");
    let written = capacities.write_empty_image(&mut [0; 48]);
    assert_eq!(written, Err(refusal), "{capacities:?}");
}

#[test]
fn small_ones() {
    for number in 0..4_usize.pow(4) {
        let [subjects, grants, lines, items] = [1, 4, 16, 64].map(|power| number / power % 4);
        assert_makes_its_image(capacities([subjects + 1, grants, lines, items]));
    }
}

#[test]
fn random_ones() {
    for seed in 0..rounds(2_000) {
        let random = &mut Random::new(seed);
        // Each table takes at most a quarter of the bytes behind the header.
        let [subjects, grants, lines, items] =
            [12, 20, 16, 16].map(|row| random.below(16_375 / row));
        assert_makes_its_image(capacities([subjects + 1, grants, lines, items]));
    }
}

#[test]
fn the_shortest() {
    let custodian_only = capacities([1, 0, 0, 0]);
    assert_makes_its_image(custodian_only);
    assert_eq!(custodian_only.image_bytes(), Ok(48));
}

#[test]
fn the_longest() {
    let longest = [
        [5_457, 0, 1, 0],
        [5_455, 2, 0, 0],
        [2, 1, 0, 4_091],
        [2, 3_273, 1, 0],
        [2, 1, 4_091, 0],
        [1_001, 600, 1_000, 1_593],
    ];
    for rows in longest {
        assert_makes_its_image(capacities(rows));
        assert_eq!(capacities(rows).image_bytes(), Ok(LONGEST), "{rows:?}");
        for table in 0..4 {
            let mut more = rows;
            more[table] += 1;
            assert_refused(capacities(more), Refusal::BadLength);
        }
    }
}

/// Numbers whose products and sums do not fit into a usize.
#[test]
fn far_too_long() {
    for table in 0..4 {
        for many in [usize::MAX, usize::MAX / 4, usize::MAX / 12 + 1, 1 << 60] {
            let mut rows = [1; 4];
            rows[table] = many;
            assert_refused(capacities(rows), Refusal::BadLength);
        }
    }
    assert_refused(capacities([usize::MAX; 4]), Refusal::BadLength);
    assert_refused(capacities([usize::MAX / 60; 4]), Refusal::BadLength);
}

/// As before a call, the length is asked about first.
#[test]
fn no_row_for_the_custodian() {
    assert_refused(capacities([0, 0, 0, 0]), Refusal::BadLayout);
    assert_refused(capacities([0, 5, 5, 5]), Refusal::BadLayout);
    assert_refused(capacities([0, 0, 0, 10_000]), Refusal::BadLength);
    assert_refused(Capacities::default(), Refusal::BadLayout);
}

#[test]
fn every_byte_is_written() {
    let capacities = capacities([2, 1, 1, 1]);
    let mut image = vec![0xff; 36 + 24 + 20 + 16 + 16];
    assert_eq!(capacities.write_empty_image(&mut image), Ok(()));
    assert_eq!(Ok(image), capacities.empty_image());
}

#[test]
fn a_slice_of_another_length_is_left_as_it_was() {
    let capacities = capacities([1, 0, 0, 0]);
    for length in [0, 35, 36, 47, 49, 60, LONGEST] {
        let mut image = vec![0xff; length];
        let written = capacities.write_empty_image(&mut image);
        assert_eq!(written, Err(Refusal::BadLength), "{length} bytes");
        assert!(image.iter().all(|&byte| byte == 0xff), "{length} bytes");
    }
}

/// Each table takes as many rows as its capacity says.
#[test]
fn filled_to_the_last_row() {
    let made = capacities([4, 2, 3, 5]).empty_image();
    let image = &mut made.expect("it is not too long");
    let (custodian, no_role, all) = (Subject::CUSTODIAN, Role::NONE, Privileges::ALL);
    let subjects = rows_until_full(|_| {
        dacm::define_subject(image, custodian, no_role, custodian, all).map(|_| ())
    });
    let grants = rows_until_full(|added| {
        let role = Role(added + 1);
        dacm::set_grant(image, custodian, custodian, role, custodian, all)
    });
    let items = rows_until_full(|_| {
        let (none, flags) = (Item::NONE, Flags::IS_LIST);
        dacm::create_item(image, custodian, no_role, none, flags, none).map(|_| ())
    });
    let lines = rows_until_full(|added| {
        let (list, kind, subject) = (Item(1), Kind::ITSELF, Subject(added));
        dacm::set_line(image, custodian, no_role, list, kind, subject, all)
    });
    assert_eq!([subjects, grants, lines, items], [3, 2, 3, 5]);
}

/// How often a call adds a row before the table is full. The call gets the number of rows that it has added.
fn rows_until_full(mut add: impl FnMut(u32) -> Result<(), Refusal>) -> u32 {
    let mut added = 0;
    loop {
        match add(added) {
            Ok(()) => added += 1,
            Err(refusal) => {
                assert_eq!(refusal, Refusal::TableFull);
                return added;
            }
        }
    }
}
