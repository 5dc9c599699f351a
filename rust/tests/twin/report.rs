//! What the report program prints.

use super::image::Image;
use super::permission::permission_set;
use super::rows::{Item, NO_ROLE};
use super::Refused;
use std::io::{Result, Write};

const BLOCK: usize = 64 * 1024;

/// Three numbers of at most ten digits, each followed by one byte.
const LONGEST_LINE: usize = 33;

/// The report on these bytes: a line for each subject and item under role 0, or
/// the refusal. For more than 65,536 bytes that is 1.
pub fn report(image: &[u8], out: &mut impl Write) -> Result<()> {
    let mut text = Vec::with_capacity(BLOCK);
    match Image::open(image) {
        Ok(image) => report_sets(&image, &mut text, out)?,
        Err(Refused(number)) => {
            text.extend_from_slice(b"refused ");
            Decimal::of(number).put(&mut text, b'\n');
        }
    }
    out.write_all(&text)
}

/// Writes full blocks to `out` and leaves the last, partly filled one in `text`.
fn report_sets(image: &Image, text: &mut Vec<u8>, out: &mut impl Write) -> Result<()> {
    text.extend_from_slice(b"subject item set\n");
    for subject in 0..image.subject_count() {
        for (number, row) in (1..).zip(image.items.used) {
            if text.len() + LONGEST_LINE > BLOCK {
                out.write_all(text)?;
                text.clear();
            }
            let set = permission_set(image, subject, NO_ROLE, Item::read(row));
            Decimal::of(subject).put(text, b' ');
            Decimal::of(number).put(text, b' ');
            Decimal::of(set).put(text, b'\n');
        }
    }
    Ok(())
}

/// A number's decimal digits, at the end of ten bytes.
struct Decimal {
    digits: [u8; 10],
    start: usize,
}

impl Decimal {
    fn of(number: u32) -> Decimal {
        let mut digits = [0; 10];
        let mut start = digits.len();
        let mut rest = number;
        loop {
            start -= 1;
            digits[start] = b'0' + (rest % 10) as u8;
            rest /= 10;
            if rest == 0 {
                return Decimal { digits, start };
            }
        }
    }

    fn put(&self, text: &mut Vec<u8>, then: u8) {
        text.extend_from_slice(&self.digits[self.start..]);
        text.push(then);
    }
}
