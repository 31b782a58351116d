//! The machine: rows of writes, views, steps and refusals.

mod state;
mod step;

pub use state::{State, View, Write, WORDS};
pub use step::{take, Step};

#[cfg(test)]
mod tests;
