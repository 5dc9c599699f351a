//! The proved library and two independent implementations in Rust, the plain twin and the quick
//! yardstick: how long the same calls take on the same images, and the search for one line alone.
//! `make bench` in the directory above runs this and builds what it needs.

#[allow(dead_code)]
#[path = "../tests/support/call.rs"]
mod call;
#[path = "tables/cases.rs"]
mod cases;
#[allow(dead_code)]
#[path = "../tests/support/explanation.rs"]
mod explanation;
#[path = "tables/images.rs"]
mod images;
#[path = "tables/printing.rs"]
mod printing;
#[allow(dead_code)]
#[path = "../tests/support/random.rs"]
mod random;
#[path = "tables/reports.rs"]
mod reports;
#[path = "../tests/support/sample.rs"]
mod sample;
#[path = "tables/searching.rs"]
mod searching;
#[path = "tables/setting.rs"]
mod setting;
#[path = "tables/sides.rs"]
mod sides;
#[allow(dead_code)]
#[path = "../tests/support/tables.rs"]
mod tables;
#[path = "tables/timing.rs"]
mod timing;
#[path = "../tests/twin/mod.rs"]
mod twin;
#[path = "../tests/yardstick/mod.rs"]
mod yardstick;

use call::Call;
use cases::{Case, Operation, Work, FIRST_ROW, PASS};
use printing::Row;
use searching::LineSearch;
use sides::{Side, SIDES};
use std::io;

/// What the library's search for the first row may take at most, with its pass over all rows as 1.
const MOST_OF_A_PASS: f64 = 0.5;

fn main() -> io::Result<()> {
    if let Some(side) = Side::asked_for_report() {
        return reports::print_report(side);
    }
    reports::stop_without_report_program();
    let cases = cases::cases();
    cases.iter().for_each(assert_accepted);
    setting::print_setting();
    printing::print_what_is_measured(&cases);
    printing::print_heading();
    timing::warm_up(&cases[0].image);
    let mut rows = Vec::new();
    for case in &cases {
        measure(case, &mut rows)?;
    }
    printing::print_summary(&rows);
    assert_first_row_is_quick(&rows);
    Ok(())
}

/// Prints each row as soon as it is known.
fn measure(case: &Case, rows: &mut Vec<Row>) -> io::Result<()> {
    let mut add = |operation, times| {
        let row = Row {
            image: case.image_name,
            operation,
            times,
        };
        printing::print_row(&row);
        rows.push(row);
    };
    for operation in &case.operations {
        assert_same_answer(case, operation);
        let times = timing::time_work(&operation.work, &case.image);
        add(operation.name, times);
    }
    let times = reports::time_report(&case.image)?;
    add("report", times);
    Ok(())
}

fn assert_accepted(case: &Case) {
    for side in SIDES {
        let answer = side.make(&Call::Check, &mut case.image.clone());
        assert_eq!(
            answer.number,
            0,
            "the {} on {}",
            side.name(),
            case.image_name
        );
    }
}

fn assert_same_answer(case: &Case, operation: &Operation) {
    let what = format!("{} on {}", operation.name, case.image_name);
    match &operation.work {
        Work::Call(call) => assert_same_outcome(call, &case.image, &what),
        Work::Search(search) => assert_place(search, &case.image, &what),
    }
}

/// All sides answer the same and leave the same bytes. No call is refused, except the editor search
/// if there is no editor.
fn assert_same_outcome(call: &Call, image: &[u8], what: &str) {
    let [library, twin, yardstick] = SIDES.map(|side| {
        let mut image = image.to_vec();
        (side.make(call, &mut image), image)
    });
    assert!(library == twin, "library and twin differ: {what}");
    assert!(library == yardstick, "library and yardstick differ: {what}");
    let no_editor = 20;
    let (answer, _) = library;
    let none_there = matches!(call, Call::FindEditor { .. }) && answer.number == no_editor;
    assert!(answer.number == 0 || none_there, "{what} is refused");
}

/// All sides answer the right place.
fn assert_place(search: &LineSearch, image: &[u8], what: &str) {
    for side in SIDES {
        let place = search.answer(side, image);
        assert_eq!(place, search.place, "the {} for {what}", side.name());
    }
}

/// Prints what the first row takes, and ends the program if that is too much.
fn assert_first_row_is_quick(rows: &[Row]) {
    let named = |name| {
        let found = rows.iter().find(|row| row.operation == name);
        found.expect("both are measured, on one image")
    };
    let time = |row: &Row| row.times.of(Side::Library);
    let (first_row, pass) = (named(FIRST_ROW), named(PASS));
    let share = time(first_row) / time(pass);
    printing::print_first_row(first_row.image, share);
    assert!(share <= MOST_OF_A_PASS, "more than {MOST_OF_A_PASS}");
}
