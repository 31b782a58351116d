//! What a reader of images answers.

use reference::checker::Refusal;

/// A refusal has a code from 2 to 9, or 23, and the record, counted from 1; 0 for the whole image.
pub type Answer = Result<(), Refusal>;

pub type Reader = fn(&[u8]) -> Answer;
