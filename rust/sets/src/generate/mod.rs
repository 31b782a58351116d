//! Seeded images, valid and damaged, in which every code and every rule occurs.

pub mod calls;
mod claims;
pub mod clutter;
pub mod coverage;
pub mod damage;
pub mod handovers;
pub mod harness;
pub mod image;
pub mod instances;
pub mod mutate;
pub mod programs;
pub mod random;
pub mod tariffs;
pub mod traces;
pub mod vocabulary;

pub use image::image;

#[cfg(test)]
mod tests;
