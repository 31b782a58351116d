//! Stored sets of images with their verdicts, of images trimmed and billed, and of traces replayed.
//!
//! Verdicts and answers are the independent checker's. Each case has a label that names
//! the clause of the scope page that it tests.

pub mod bills;
pub mod edits;
pub mod expected;
pub mod formulas;
pub mod handovers;
pub mod images;
mod nesting;
pub mod precedence;
mod refused;
pub mod replays;
pub mod rules;
pub mod service;
pub mod store;
pub mod tour;
pub mod trims;

/// One stored image.
#[derive(Clone, Debug, PartialEq, Eq)]
pub struct Case {
    pub label: String,
    pub image: Vec<u8>,
}

impl Case {
    pub fn new(label: impl Into<String>, image: Vec<u8>) -> Case {
        Case { label: label.into(), image }
    }
}

#[cfg(test)]
mod tests;
