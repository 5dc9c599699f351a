//! The search for one line alone, and a pass over all lines beside it. The benchmark times them;
//! they are no calls. The image is an accepted one, and the key is one that a line can have.

use super::rows::{line_key, Line};
use super::tables::Rows;

/// Where the line is, or else where it would be.
pub fn line_index(image: &[u8], list: u32, kind: u32, subject: u32) -> u32 {
    let key = line_key(list, kind, subject);
    let (Ok(index) | Err(index)) = lines(image).find_line(key);
    index as u32
}

/// The same number, counted: how many lines have a lower key.
pub fn count_lower_lines(image: &[u8], list: u32, kind: u32, subject: u32) -> u32 {
    let key = line_key(list, kind, subject);
    let lines = lines(image).used.iter().map(Line::of);
    lines.filter(|line| line.key() < key).count() as u32
}

#[inline]
fn lines(image: &[u8]) -> Rows<'_, 4> {
    Rows::lines(image).expect("an accepted image has its lines within it")
}
