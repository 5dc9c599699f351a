//! Long random sequences of calls on one image, as a host makes them: the library against the twin,
//! and the yardstick beside them.
//!
//! Three calls in four are chosen among those that write the image, the others among all calls. At
//! the end each call must have been accepted, and refused with each of its own questions.

mod support;
mod twin;
mod yardstick;

use support::call::Call;
use support::choose::Chooser;
use support::compare::compare;
use support::coverage::Coverage;
use support::libraries::Size;
use support::random::Random;
use support::rounds;
use support::tables::Tables;

/// How many calls a sequence has.
const CALLS: usize = 1_000;

/// Two tests, each with half of the seeds, so that two cores share the work.
#[test]
fn sequences_with_even_seeds() {
    run_sequences(0);
}

#[test]
fn sequences_with_odd_seeds() {
    run_sequences(1);
}

fn run_sequences(first_seed: u64) {
    let mut coverage = Coverage::default();
    for seed in (first_seed..rounds(3_000)).step_by(2) {
        run_sequence(seed, &mut coverage);
    }
    coverage.assert_own_questions();
}

/// One sequence. All calls work on the same image, and after each it must still be accepted.
fn run_sequence(seed: u64, coverage: &mut Coverage) {
    let random = &mut Random::new(seed);
    let mut image = Size::growing(random).library(random).image();
    for step in 0..CALLS {
        let tables = &Tables::read(&image);
        let mut chooser = Chooser { random, tables };
        let call = if chooser.random.one_in(4) {
            chooser.any_call()
        } else {
            chooser.writing_call()
        };
        let case = format!("seed {seed}, step {step}");
        let outcome = compare(&mut image, &call, &case);
        coverage.saw(&call, &outcome);
        assert_still_accepted(&image, &call, &case);
    }
}

fn assert_still_accepted(image: &[u8], call: &Call, case: &str) {
    let checked = dacm::check(image);
    assert_eq!(checked, Ok(()), "{case}: {call:?} left an unaccepted image");
}
