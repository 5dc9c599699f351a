//! The search for one line alone, and a pass over all lines that answers the same.
//! Both are for the benchmark. They are no calls: they take an image that was
//! accepted before, and ask no question.

use super::image::Rows;
use super::rows::{Line, LINE};

/// The index of this line, or else its insertion index.
pub fn line_index(image: &[u8], list: u32, kind: u32, subject: u32) -> u32 {
    let (Ok(index) | Err(index)) = lines(image).find_line(list, kind, subject);
    index as u32
}

/// How many lines have a lower key. The lines are sorted, so this is the index above.
pub fn count_lower_lines(image: &[u8], list: u32, kind: u32, subject: u32) -> u32 {
    let key = (list, kind, subject);
    let lines = lines(image).used.iter().map(Line::read);
    lines.filter(|line| line.key() < key).count() as u32
}

fn lines(image: &[u8]) -> Rows<'_, LINE> {
    Rows::lines(image).expect("an accepted image has its lines within it")
}
