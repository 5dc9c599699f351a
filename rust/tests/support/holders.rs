//! What must hold of counts, whatever an implementation says.

use super::call::{Counts, Outcome};
use super::tables::get_field;
use dacm::{Item, Privileges, Refusal, Role, Subject};

/// A refused call has left its entries as they were. Otherwise each counts at least the custodian
/// and at most every subject. The crate, which lends entries of its own, answers the same.
pub fn assert_counts_hold(image: &[u8], item: u32, outcome: &Outcome, case: &str) {
    let counts = outcome.counts.as_ref().expect("entries were lent");
    let is_count = |count: &u32| (1..=subject_count(image)).contains(count);
    let hold = match outcome.number {
        0 => counts.lent().iter().all(is_count),
        _ => counts.are_untouched(),
    };
    assert!(hold, "{case}: for item {item} there is {outcome:?}");
    if counts.lent().len() == Counts::POSITIONS {
        let answered = dacm::count_holders(image, Item(item)).map(|counts| counts.to_vec());
        let same = match outcome.number {
            0 => answered == Ok(counts.lent().to_vec()),
            number => answered.is_err_and(|refusal| refusal.number() == number),
        };
        assert!(same, "{case}: for item {item} the crate has other counts");
    }
}

/// The counts made up from the permission sets of all subjects, each asked of the library.
pub fn counts_of_sets(image: &[u8], item: u32) -> Vec<u32> {
    counts_of(image, |subject| {
        dacm::permission_set(image, subject, Role::NONE, Item(item))
    })
}

/// The same with the item's own sets, which no folder has cut.
pub fn counts_of_own_sets(image: &[u8], item: u32) -> Vec<u32> {
    counts_of(image, |subject| {
        let why = dacm::explain(image, subject, Role::NONE, Item(item));
        why.map(|explanation| explanation.own_set())
    })
}

fn counts_of(image: &[u8], set: impl Fn(Subject) -> Result<Privileges, Refusal>) -> Vec<u32> {
    let set_of = |subject| set(Subject(subject)).expect("subject and item are in use");
    let sets: Vec<Privileges> = (0..subject_count(image)).map(set_of).collect();
    let holders_of = |position: usize| {
        let has_it = |set: &&Privileges| set.contains(Privileges(1 << position));
        sets.iter().filter(has_it).count() as u32
    };
    (0..Counts::POSITIONS).map(holders_of).collect()
}

/// Of an accepted image.
fn subject_count(image: &[u8]) -> u32 {
    get_field(image, 0)
}
