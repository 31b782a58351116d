//! Readable proof outlines to images of Hidokpalu, and back.
//!
//! `text` reads sources and writes texts, `search` finds certificate lines, `build` and `explicit`
//! put images together, `handover` finds the table of a handover, `gallery` makes the tables of the
//! examples, `report` and `draw` make pages and drawings, `migrate` rewrites images of earlier layouts,
//! `c` reads C, `litmus` and `import` what is written in it, and `same` compares; `further` answers by rules that are not
//! published. What an image is and which lines are justified is the library `reference`'s.

pub mod build;
pub mod c;
pub mod command;
pub mod diagnosis;
pub mod draw;
pub mod explicit;
pub mod fmt;
pub mod further;
pub mod fuzz;
pub mod gallery;
pub mod handover;
pub mod image;
pub mod import;
pub mod infer;
pub mod judged;
pub mod litmus;
pub mod lsp;
pub mod markup;
pub mod migrate;
pub mod refuted;
pub mod report;
pub mod same;
pub mod search;
pub mod terms;
pub mod text;
pub mod watch;
