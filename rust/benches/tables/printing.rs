//! The table in Markdown, and the text before and after it.

use crate::cases::Case;
use crate::reports::{FEWEST_RUNS, MOST_RUNS};
use crate::sides::Side;
use crate::tables::Tables;
use crate::timing::{Times, FEWEST_BATCHES, MOST_BATCHES};

/// What was measured on an image.
pub struct Row {
    pub image: &'static str,
    pub operation: &'static str,
    pub times: Times,
}

pub fn print_what_is_measured(cases: &[Case]) {
    println!(
        "Proved library, twin and yardstick, built for release, images warm in cache, in turns."
    );
    println!("Ratios: the library's time to that of the twin, and to that of the yardstick.");
    println!("Calls: best of {MOST_BATCHES} batches, of at least {FEWEST_BATCHES} where slow.");
    println!("Line search and pass: as calls, but without the check of the image.");
    println!("Reports: best of {MOST_RUNS} whole processes, of at least {FEWEST_RUNS} where slow.");
    println!();
    print_sizes(["image", "bytes", "subjects", "grants", "lines", "items"]);
    println!("|:--|--:|--:|--:|--:|--:|");
    for case in cases {
        print_sizes(sizes(case).each_ref().map(String::as_str));
    }
    println!();
}

fn sizes(case: &Case) -> [String; 6] {
    let tables = Tables::read(&case.image);
    [
        case.image_name.to_string(),
        case.image.len().to_string(),
        tables.subjects.used().to_string(),
        tables.grants.used().to_string(),
        tables.lines.used().to_string(),
        tables.items.used().to_string(),
    ]
}

fn print_sizes([image, bytes, subjects, grants, lines, items]: [&str; 6]) {
    println!("| {image:14} | {bytes:>6} | {subjects:>8} | {grants:>6} | {lines:>5} | {items:>5} |");
}

pub fn print_heading() {
    print_times([
        "image",
        "operation",
        "library",
        "twin",
        "ratio",
        "yardstick",
        "ratio",
    ]);
    println!("|:--|:--|--:|--:|--:|--:|--:|");
}

pub fn print_row(row: &Row) {
    let time = |side| with_unit(row.times.of(side));
    let ratio = |side| in_three_digits(row.times.ratio_to(side));
    print_times([
        row.image,
        row.operation,
        &time(Side::Library),
        &time(Side::Twin),
        &ratio(Side::Twin),
        &time(Side::Yardstick),
        &ratio(Side::Yardstick),
    ]);
}

fn print_times(columns: [&str; 7]) {
    let [image, operation, library, twin, to_twin, yardstick, to_yardstick] = columns;
    println!(
        "| {image:14} | {operation:31} | {library:>7} | {twin:>7} | {to_twin:>6} \
         | {yardstick:>9} | {to_yardstick:>6} |"
    );
}

/// The largest ratio to each of the other two sides.
pub fn print_summary(rows: &[Row]) {
    println!();
    print_largest(Side::Twin, rows);
    print_largest(Side::Yardstick, rows);
}

fn print_largest(side: Side, rows: &[Row]) {
    let ratio = |row: &Row| row.times.ratio_to(side);
    let row = rows
        .iter()
        .max_by(|one, other| ratio(one).total_cmp(&ratio(other)))
        .expect("there are rows");
    println!(
        "Largest ratio to the {}: {} ({}: {}).",
        side.name(),
        in_three_digits(ratio(row)),
        row.image,
        row.operation
    );
}

/// The time for the first row, with the pass over all rows of the same image as 1.
pub fn print_first_row(image: &str, share: f64) {
    println!("The first row takes {share:.3} of the time of a pass over all rows ({image}).");
}

/// A time in three digits and a unit that suits them.
fn with_unit(seconds: f64) -> String {
    let (number, unit) = match seconds {
        1.0.. => (seconds, "s"),
        1e-3.. => (seconds * 1e3, "ms"),
        1e-6.. => (seconds * 1e6, "µs"),
        _ => (seconds * 1e9, "ns"),
    };
    format!("{} {unit}", in_three_digits(number))
}

/// More digits only if there are more before the point.
fn in_three_digits(number: f64) -> String {
    let decimals = match number {
        100.0.. => 0,
        10.0.. => 1,
        _ => 2,
    };
    format!("{number:.decimals$}")
}
