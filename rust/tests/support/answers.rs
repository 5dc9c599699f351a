//! Calls made on the library, on the twin and on the yardstick, which must agree, and their answers as
//! number and result.

use super::call::{Call, Outcome};
use super::compare::compare;
use crate::{twin, yardstick};

/// Makes the call on all three and returns number and result.
pub fn answer(image: &mut [u8], call: Call) -> (u32, u32) {
    let Outcome { number, result, .. } = compare(image, &call, "no seed");
    (number, result)
}

pub fn refused(number: u32) -> (u32, u32) {
    (number, 0)
}

pub fn accepted(result: u32) -> (u32, u32) {
    (0, result)
}

pub fn permission_set(image: &mut [u8], subject: u32, role: u32, item: u32) -> (u32, u32) {
    answer(
        image,
        Call::PermissionSet {
            subject,
            role,
            item,
        },
    )
}

/// The report of the twin and of the yardstick, which must agree.
pub fn report(image: &[u8]) -> String {
    let (mut twins, mut yardsticks) = (Vec::new(), Vec::new());
    twin::report(image, &mut twins).expect("a vector takes every byte");
    yardstick::report(image, &mut yardsticks).expect("a vector takes every byte");
    assert_eq!(twins, yardsticks);
    String::from_utf8(twins).expect("the report is plain text")
}
