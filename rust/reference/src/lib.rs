//! The independent checker, the machine and its explorer.
//!
//! Everything here is written from the public description of the image format,
//! the rules and the machine (the scope page), and from nothing else.

pub mod assemble;
pub mod bill;
pub mod checker;
pub mod explore;
pub mod formula;
pub mod handover;
pub mod image;
pub mod machine;
pub mod proof;
pub mod replay;
pub mod service;
pub mod stored;
pub mod trim;
