//! Which explanations a test saw, so that it can demand one of each sort.

use super::explanation::{
    Explanation, Question, CUSTODIAN, GROUP_LINE, NOTHING_FOUND, OUTSIDE, OWNER_LINE, OWN_LINE,
};
use super::sample::EVERYONE;
use super::tables::Tables;
use std::collections::BTreeSet;

/// An explanation, whether the asker owns the item, what the list's line for everyone gives, 0 without
/// one, the domain of the grant, and the item's folder, whether or not it applies.
struct Example<'a> {
    explanation: &'a Explanation,
    owns: bool,
    everyone: u32,
    domain: Option<u32>,
    folder: u32,
}

/// What a sort is called, and whether an example is of it.
type Sort = (&'static str, fn(&Example) -> bool);

/// What there must be an example of.
#[rustfmt::skip]
const SORTS: [Sort; 24] = [
    ("the custodian", |it| it.rule() == CUSTODIAN),
    ("the custodian, whom everyone's line does not concern", |it| it.rule() == CUSTODIAN && it.everyone != 0),
    ("the custodian under a role", |it| it.rule() == CUSTODIAN && it.explanation.role_set != 0),
    ("an owner line", |it| it.rule() == OWNER_LINE && it.gives()),
    ("an owner line that gives nothing", |it| it.rule() == OWNER_LINE && !it.gives()),
    ("an own line", |it| it.rule() == OWN_LINE && it.gives()),
    ("an own line that gives nothing", |it| it.rule() == OWN_LINE && !it.gives()),
    ("an owner's own line", |it| it.rule() == OWN_LINE && it.owns && it.gives()),
    ("an owner's own line that gives nothing", |it| it.rule() == OWN_LINE && it.owns && !it.gives()),
    ("an owner's group line", |it| it.rule() == GROUP_LINE && it.owns),
    ("the custodian's group line", |it| it.rule() == GROUP_LINE && it.explanation.group == 0),
    ("another's group line", |it| it.rule() == GROUP_LINE && it.explanation.group != 0),
    ("a group line that gives nothing", |it| it.rule() == GROUP_LINE && !it.gives()),
    ("nothing found", |it| it.rule() == NOTHING_FOUND && it.everyone == 0),
    ("nothing found but everyone's line", |it| it.rule() == NOTHING_FOUND && it.everyone != 0),
    ("a role's part that the operation set cuts", |it| it.explanation.role_set & !it.explanation.operations != 0),
    ("a role that is not granted", |it| it.domain.is_none() && it.explanation.steps == OUTSIDE),
    ("an owner outside of the domain", |it| it.domain.is_some() && it.explanation.steps == OUTSIDE),
    ("an owner who is the domain", |it| it.explanation.steps == 0),
    ("an owner one step below the domain", |it| it.explanation.steps == 1),
    ("an owner more steps below the domain", |it| (2..OUTSIDE).contains(&it.explanation.steps)),
    ("an item in no folder", |it| it.folder == 0),
    ("a folder that does not apply", |it| it.folder != 0 && it.explanation.folder == 0),
    ("a folder that applies", |it| it.explanation.folder != 0),
];

impl Example<'_> {
    fn rule(&self) -> u32 {
        self.explanation.rule
    }

    fn gives(&self) -> bool {
        self.explanation.rule_set != 0
    }
}

/// The sorts of explanations seen.
#[derive(Default)]
pub struct Examples(BTreeSet<&'static str>);

impl Examples {
    /// An explanation on an image with these tables. A refused one is of no sort.
    pub fn saw(&mut self, tables: &Tables, question: &Question, explanation: &Explanation) {
        if explanation.number != 0 {
            return;
        }
        let list = tables.list_of(question.item);
        let example = Example {
            explanation,
            owns: tables.owner_of(question.item) == question.subject,
            everyone: tables.line(list, EVERYONE, 0).unwrap_or(0),
            domain: tables.domain_of(question.subject, question.role),
            folder: tables.items.rows[question.item as usize - 1][3],
        };
        let sorts = SORTS.iter().filter(|(_, holds)| holds(&example));
        self.0.extend(sorts.map(|(sort, _)| sort));
    }

    pub fn assert_all_seen(&self) {
        for (sort, _) in SORTS {
            assert!(self.0.contains(sort), "there was never {sort}");
        }
    }
}
