//! The search for certificate lines.
//!
//! Backwards from a goal: `triple` makes a plan of all ways to it (`write`,
//! `head`, `clauses`), the `cases` of the left side choose among them, and
//! `implication` closes the gap with premises that `support` and `interval` find.

pub mod budget;
mod case_by_case;
pub mod cases;
pub mod certificate;
mod clauses;
mod further;
pub mod hash;
mod head;
mod implication;
mod interval;
pub mod kept;
mod leaves;
mod links;
mod named;
mod pair;
pub mod plan;
pub mod prover;
mod released;
pub mod shorten;
mod steps;
pub mod support;
mod support_sees;
pub mod tried;
mod triple;
mod wording;
pub mod write;
