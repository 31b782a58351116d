//! `watch`: outlines judged again at each save. `warm` remembers what was found before, `judgement` has all that is said
//! of a text; the language server uses both.

mod command;
pub mod judgement;
pub mod warm;

pub use command::run;
