//! Images for judging the proved checker from outside: generated ones, stored sets, whole proofs by hand.
//! All verdicts are the independent checker's.

pub mod examples;
pub mod generate;
pub mod vectors;
