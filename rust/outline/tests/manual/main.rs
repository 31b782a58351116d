//! What `docs/MANUAL.md` shows is so: instances of rules, pictures, and what the tool says.
//!
//! The manual's fenced blocks are marked; the manual's last section says how.

mod atomics;
mod blocks;
mod inferred;
mod instances;
mod pages;
mod pictures;
mod served;
