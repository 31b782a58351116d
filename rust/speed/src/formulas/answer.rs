//! What a reader is given beside the bytes, and what it answers.

pub use reference::formula::parse::Counts;

/// The most that an image has, with the usual range.
pub const HIGHEST: Counts = Counts { threads: 4, words: 8, registers: 16, range: 8 };

/// A formula without a part has nesting 1.
pub const NESTING: usize = 16;

#[derive(Clone, Copy, Debug, PartialEq, Eq)]
pub enum Fault {
    /// 6: a number outside its range.
    Range,
    /// 7: a code unknown or unfit at its place, nesting, bytes missing or left over.
    Form,
}

/// The sort of a formula (0 value, 1 test, 2 interval, 3 assertion), or its first fault.
pub type Answer = Result<u8, Fault>;

pub type Reader = fn(&[u8], Counts) -> Answer;
