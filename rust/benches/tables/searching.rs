//! The search for one line alone, without the check of the image with which every call begins; and
//! a pass over all lines to compare it with. They are no calls of the library, and only the
//! benchmark makes them, on images that all sides accept.

use crate::sides::Side;
use crate::{twin, yardstick};

/// A key whose place among the lines is asked for: how many lines have a lower key. The lines are
/// sorted, so that is the index of the line with this key, or the index at which it would go in.
pub struct LineSearch {
    pub way: Way,
    /// List, kind, subject.
    pub key: [u32; 3],
    /// The right answer.
    pub place: u32,
}

/// How the place is found.
#[derive(Clone, Copy)]
pub enum Way {
    /// By the search with which the calls look up a line.
    Search,
    /// By comparing every line with the key.
    Pass,
}

impl LineSearch {
    pub fn answer(&self, side: Side, image: &[u8]) -> u32 {
        let place: fn(&[u8], u32, u32, u32) -> u32 = match (side, self.way) {
            (Side::Library, Way::Search) => library::line_index,
            (Side::Library, Way::Pass) => library::count_lower_lines,
            (Side::Twin, Way::Search) => twin::line_index,
            (Side::Twin, Way::Pass) => twin::count_lower_lines,
            (Side::Yardstick, Way::Search) => yardstick::line_index,
            (Side::Yardstick, Way::Pass) => yardstick::count_lower_lines,
        };
        let [list, kind, subject] = self.key;
        place(image, list, kind, subject)
    }
}

/// The functions of a second static library, which is proved too. It is there for this benchmark.
mod library {
    use dacm::{Item, Subject};

    /// With this, cargo links anew where the archive has changed. Where it is missing, the compiler
    /// says so and shows this line.
    const _: &[u8] = include_bytes!(env!("DACM_TIMING_ARCHIVE")); // `make timing` builds it

    #[link(name = "timing", kind = "static")]
    extern "C" {
        fn dacm_timed_search(
            image: *const u8,
            length: usize,
            list: Item,
            kind: u32,
            subject: Subject,
        ) -> u32;
        fn dacm_timed_pass(
            image: *const u8,
            length: usize,
            list: Item,
            kind: u32,
            subject: Subject,
        ) -> u32;
    }

    pub fn line_index(image: &[u8], list: u32, kind: u32, subject: u32) -> u32 {
        let (image, length) = (image.as_ptr(), image.len());
        // SAFETY: pointer and length are those of one slice, and the image is an accepted one.
        unsafe { dacm_timed_search(image, length, Item(list), kind, Subject(subject)) }
    }

    pub fn count_lower_lines(image: &[u8], list: u32, kind: u32, subject: u32) -> u32 {
        let (image, length) = (image.as_ptr(), image.len());
        // SAFETY: as above.
        unsafe { dacm_timed_pass(image, length, Item(list), kind, Subject(subject)) }
    }
}
