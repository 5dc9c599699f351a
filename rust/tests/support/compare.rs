//! A call on the library, on the twin and on the yardstick, with everything that it answers and
//! leaves compared.

use super::call::{Call, Outcome};
use super::explanation::{Question, OUTSIDE};
use super::holders::assert_counts_hold;
use super::tables::Tables;

/// Makes the call on the library, on the twin and on the yardstick. All must answer the same and
/// leave the same bytes. If the call is refused or only asks, these must be the bytes from before.
/// An explanation, counts and steps must also hold of the image. Afterwards the image is as the call
/// left it.
pub fn compare(image: &mut [u8], call: &Call, seed: &str) -> Outcome {
    compare_made_by(image, call, seed, |image| call.on_library(image))
}

/// The same, with `on_library` to make the call on the library.
pub fn compare_made_by(
    image: &mut [u8],
    call: &Call,
    seed: &str,
    on_library: impl FnOnce(&mut [u8]) -> Outcome,
) -> Outcome {
    let before = image.to_vec();
    let ours = on_library(image);
    let mut after = before.clone();
    let twins = call.on_twin(&mut after);
    assert!(
        ours == twins,
        "{seed}: {call:?} answers {ours:?}, the twin {twins:?}"
    );
    assert_same_bytes(image, &after, call, seed, "the twin leaves");
    after.copy_from_slice(&before);
    let yardsticks = call.on_yardstick(&mut after);
    assert!(
        ours == yardsticks,
        "{seed}: {call:?} answers {ours:?}, the yardstick {yardsticks:?}"
    );
    assert_same_bytes(image, &after, call, seed, "the yardstick leaves");
    if ours.number != 0 || call.only_asks() {
        assert_same_bytes(image, &before, call, seed, "there was");
    }
    if let (Some(question), Some(explanation)) = (Question::of(call), &ours.explanation) {
        question.assert_explained(&before, explanation, seed);
    }
    if let Call::CountHolders { item, .. } = *call {
        assert_counts_hold(&before, item, &ours, seed);
    }
    if let (Call::StepsUp { subject, root }, 0) = (*call, ours.number) {
        let lead_there = Tables::read(&before).steps_up(subject, root);
        let steps = lead_there.unwrap_or(OUTSIDE);
        assert_eq!(ours.result, steps, "{seed}: {call:?}");
    }
    ours
}

fn assert_same_bytes(image: &[u8], other: &[u8], call: &Call, seed: &str, said: &str) {
    // Comparing whole slices is much quicker than looking for the byte that differs.
    if image == other {
        return;
    }
    assert_eq!(image.len(), other.len(), "{seed}: {call:?}: two lengths");
    let differ = image.iter().zip(other).position(|(ours, its)| ours != its);
    let byte = differ.expect("slices of one length that are not equal");
    panic!(
        "{seed}: {call:?} leaves {} in byte {byte}, where {said} {}",
        image[byte], other[byte]
    );
}
