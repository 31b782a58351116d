//! C as far as programs of the machine go: thread functions with atomic accesses, and nothing that is only nearly like them.
//!
//! `lex` has the tokens, `tree` what they say, `types`, `parse` and `statement` read them, `access` knows the functions that
//! access words, `lower` turns a function into instructions, `assigned` asks whether variables have values where they are
//! read, `order` whether a read-modify-write fits, `values` whether values stay in a range; `program` puts threads together,
//! and `text` writes them as an outline. What is not known is refused at its place.

pub mod access;
pub mod assigned;
pub mod lex;
pub mod lower;
pub mod order;
pub mod parse;
pub mod program;
pub mod statement;
pub mod text;
pub mod tree;
pub mod types;
pub mod values;

use crate::text::lex::Place;

/// A place in one of the files that were read; file 0 is the one that was asked for.
#[derive(Debug, Clone, Copy, PartialEq, Eq, PartialOrd, Ord)]
pub struct At {
    pub file: u16,
    pub place: Place,
}

/// Something that cannot be taken over: where and why.
#[derive(Debug, Clone, PartialEq, Eq)]
pub struct Refusal {
    pub at: At,
    pub text: String,
}

impl Refusal {
    pub fn new(at: At, text: impl Into<String>) -> Refusal {
        Refusal { at, text: text.into() }
    }
}

pub type Read<T> = Result<T, Refusal>;

/// Refuses something at its place.
pub fn refuse<T>(at: At, text: impl Into<String>) -> Read<T> {
    Err(Refusal::new(at, text))
}
