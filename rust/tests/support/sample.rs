//! The sample workshop of the paper, 336 bytes.

use super::tables::{Table, Tables};

pub const ITSELF: u32 = 0;
pub const GROUP: u32 = 1;
pub const OWNER: u32 = 2;
pub const EVERYONE: u32 = 3;

pub fn sample() -> Tables {
    Tables {
        subjects: Table {
            rows: vec![
                [0, u32::MAX, 0],
                [0, 127, 0],
                [1, 91, 1],
                [0, 73, 0],
                [3, 9, 0],
                [2, 3, 1],
            ],
            spare: 1,
        },
        grants: Table {
            rows: vec![[4, 7, 2, 2, 3]],
            spare: 1,
        },
        lines: Table {
            rows: vec![
                [1, ITSELF, 4, 8],
                [1, ITSELF, 5, 0],
                [1, GROUP, 1, 3],
                [1, OWNER, 0, 7],
                [1, EVERYONE, 0, 1],
            ],
            spare: 1,
        },
        items: Table {
            rows: vec![[1, 1, 1, 0], [2, 1, 0, 0], [4, 1, 0, 0], [2, 0, 0, 0]],
            spare: 1,
        },
    }
}
