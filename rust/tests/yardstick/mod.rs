#![allow(dead_code)]
//! A third implementation of the access tables, written from the paper too, for speed.
//!
//! It is the yardstick of the benchmark: how fast these calls can be in Rust. Tests hold it to the
//! same answers as the library and the twin. It shares no code and no type with either. A test
//! program may use only some of the calls, hence the attributes here.
//!
//! What makes it quick is said where it is done: in `opening` for the check, in `tree` for climbs, in
//! `list` and `editor` for lines, in `permission` and `holders` for folders, in `holders` for counts, in
//! `sets` and `text` for the report.

mod asking;
mod changing;
mod editor;
mod holders;
mod list;
mod opening;
mod permission;
mod report;
mod rows;
mod searching;
mod sets;
mod tables;
mod text;
mod tree;
mod writing;

#[allow(unused_imports)]
pub use asking::{
    check, count_holders, explain, find_editor, list_count, list_start, operation_set,
    permission_set, steps_up,
};
#[allow(unused_imports)]
pub use changing::{
    bind, create_item, define_subject, hand_over, remove_grant, remove_line, set_grant, set_line,
};
#[allow(unused_imports)]
pub use report::report;
#[allow(unused_imports)]
pub use searching::{count_lower_lines, line_index};

/// What a call answers: number 0 and its result, or the number of a question and result 0.
#[derive(Clone, Copy, Debug, PartialEq, Eq)]
pub struct Answer {
    pub number: u32,
    pub result: u32,
}

/// What is behind an item's own set: number 0, the rule that decided the lines' part, and the sets that
/// the own set is put together from. Or the number of a question, and 0 in every other field.
#[derive(Clone, Copy, Debug, Default, PartialEq, Eq)]
pub struct Explanation {
    pub number: u32,
    pub rule: u32,
    /// The subject whose group line decided. The custodian's can decide too: then this is 0, as it is
    /// where another rule decided.
    pub group: u32,
    pub rule_set: u32,
    pub everyone_set: u32,
    pub role_set: u32,
    pub operations: u32,
    /// From the item's owner up to the grant's domain.
    pub steps: u32,
    /// The folder that applies to the item. Its explanation is the next.
    pub folder: u32,
}

/// A call's result, or the first question that is answered no.
type Asked<T> = Result<T, Question>;

impl Answer {
    fn to(call: impl FnOnce() -> Asked<u32>) -> Answer {
        match call() {
            Ok(result) => Answer { number: 0, result },
            Err(question) => Answer {
                number: question as u32,
                result: 0,
            },
        }
    }
}

impl Explanation {
    fn to(call: impl FnOnce() -> Asked<Explanation>) -> Explanation {
        call().unwrap_or_else(|question| Explanation {
            number: question as u32,
            ..Explanation::default()
        })
    }
}

/// The paper's questions in their order, by their numbers.
#[derive(Clone, Copy)]
enum Question {
    Length = 1,
    Layout = 2,
    Subjects = 3,
    Items = 4,
    Lines = 5,
    Grants = 6,
    UnusedRows = 7,
    Caller = 10,
    OtherSubjects = 11,
    Item = 12,
    Counts = 21,
    List = 13,
    Range = 14,
    Right = 15,
    Reach = 16,
    RowThere = 17,
    Grantor = 18,
    FreeRow = 19,
    Editor = 20,
}

impl Question {
    fn ask(self, yes: bool) -> Asked<()> {
        if yes {
            Ok(())
        } else {
            Err(self)
        }
    }
}
