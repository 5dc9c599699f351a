#![allow(dead_code)]
//! A second implementation of the access tables, written from the paper.
//!
//! Tests compare the library with it, and benchmarks take it as the baseline. It
//! takes and answers plain numbers, so it shares no type with the library. A test
//! program may use only some of the calls, hence the attributes here.
//!
//! Every call opens the image first, which asks questions 1 to 7. Then it asks
//! its own questions in the paper's order. The calls that change the image, or the
//! counts that they are lent, write only after their last question. So a refused one
//! leaves everything as it was.

mod asking;
mod changing;
mod image;
mod permission;
mod questions;
mod report;
mod rows;
mod searching;
mod table;

#[allow(unused_imports)]
pub use asking::{
    check, count_holders, explain, find_editor, list_count, list_start, operation_set,
    permission_set, steps_up,
};
#[allow(unused_imports)]
pub use changing::{
    bind, create_item, define_subject, hand_over, remove_grant, remove_line, set_grant, set_line,
};
#[allow(unused_imports)]
pub use report::report;
#[allow(unused_imports)]
pub use searching::{count_lower_lines, line_index};

/// What a call answers: number 0 and its result, or the refusal and result 0.
#[derive(Clone, Copy, Debug, PartialEq, Eq)]
pub struct Answer {
    pub number: u32,
    pub result: u32,
}

/// What explain answers: number 0 and the explanation, or the refusal and 0 in
/// every other field.
#[derive(Clone, Copy, Debug, Default, PartialEq, Eq)]
pub struct Explanation {
    pub number: u32,
    pub rule: u32,
    pub group: u32,
    pub rule_set: u32,
    pub everyone_set: u32,
    pub role_set: u32,
    pub operations: u32,
    pub steps: u32,
    pub folder: u32,
}

/// The refusal: the number of the first question answered no.
struct Refused(u32);

/// Asks one question.
fn ask(number: u32, yes: bool) -> Result<(), Refused> {
    if yes {
        Ok(())
    } else {
        Err(Refused(number))
    }
}

/// Makes a call and turns its result or refusal into an answer.
fn answer(call: impl FnOnce() -> Result<u32, Refused>) -> Answer {
    match call() {
        Ok(result) => Answer { number: 0, result },
        Err(Refused(number)) => Answer { number, result: 0 },
    }
}
