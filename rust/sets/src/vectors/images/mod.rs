//! Damaged images: each condition of the verdict table's places "whole image",
//! "record frame" and "body".

mod claims;
mod formula;
mod frames;
mod header;
mod limits;
mod line;
mod numbers;
mod obligations;
mod outline;
mod pairs;
mod thread;

use super::edits::Draft;
use super::{precedence, Case};

/// The scope page's small image, of range 8.
pub const SMALL: [u8; 50] = [
    7, 0, 1, 0, 1, 1, 0, 8, 0, 5, 0, 2, 0, 28, 11, 8, 3, 0, 2, 0, 27, 3, 0, 3, 0, 1, 4, 0, 4, 0, 1,
    0, 10, 0, 5, 0, 20, 0, 0, 2, 0, 1, 0, 0, 4, 0, 6, 0, 1, 0,
];

/// All cases of the set.
pub fn cases() -> Vec<Case> {
    [
        frames::cases(),
        header::cases(),
        formula::cases(),
        thread::cases(),
        pairs::cases(),
        outline::cases(),
        line::cases(),
        numbers::cases(),
        obligations::cases(),
        claims::cases(),
        limits::cases(),
        precedence::cases(),
    ]
    .concat()
}
