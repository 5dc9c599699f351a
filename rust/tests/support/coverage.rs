//! Which numbers each call answered, so that a test can demand that it saw all of them.

use super::call::{Call, Outcome};
use std::collections::{BTreeMap, BTreeSet};

/// The questions that each call asks after 1 to 7, which every call asks. In the order of the calls'
/// names.
#[rustfmt::skip]
const QUESTIONS: [&[u32]; Call::NAMES.len()] = [
    /* check          */ &[],
    /* operation_set  */ &[10],
    /* permission_set */ &[10, 12],
    /* explain        */ &[10, 12],
    /* count_holders  */ &[12, 21],
    /* list_count     */ &[13],
    /* lines_of       */ &[13],
    /* find_editor    */ &[13, 20],
    /* steps_up       */ &[11],
    /* define_subject */ &[10, 11, 15, 16, 19],
    /* set_grant      */ &[10, 11, 14, 16, 18, 19],
    /* remove_grant   */ &[10, 11, 14, 17, 18],
    /* set_line       */ &[10, 11, 13, 14, 15, 19],
    /* remove_line    */ &[10, 11, 13, 14, 15, 17],
    /* create_item    */ &[10, 12, 13, 14, 15, 19],
    /* bind           */ &[10, 12, 13, 15],
    /* hand_over      */ &[10, 11, 12, 15],
];

/// How often each call answered each number.
#[derive(Default)]
pub struct Coverage(BTreeMap<(&'static str, u32), u64>);

impl Coverage {
    pub fn saw(&mut self, call: &Call, outcome: &Outcome) {
        *self.0.entry((call.name(), outcome.number)).or_default() += 1;
    }

    /// Each call was accepted, and refused with each question of its own.
    pub fn assert_own_questions(&self) {
        self.assert_seen(|questions| [&[0], questions].concat());
    }

    /// Each call was refused with each of the questions that every call asks.
    pub fn assert_common_questions(&self) {
        self.assert_seen(|_| (1..=7).collect());
    }

    /// No call was refused with a question that it does not ask, and each call answered every
    /// number that is expected of it.
    fn assert_seen(&self, expected: impl Fn(&[u32]) -> Vec<u32>) {
        for (name, questions) in Call::NAMES.into_iter().zip(QUESTIONS) {
            let seen = self.numbers_of(name);
            let foreign = seen
                .iter()
                .find(|&number| *number > 7 && !questions.contains(number));
            assert_eq!(foreign, None, "{name} answered what does not concern it");
            for number in expected(questions) {
                assert!(
                    seen.contains(&number),
                    "{name} never answered {number}, only {seen:?}"
                );
            }
        }
    }

    fn numbers_of(&self, name: &str) -> BTreeSet<u32> {
        let its = self.0.keys().filter(|(called, _)| *called == name);
        its.map(|&(_, number)| number).collect()
    }
}
