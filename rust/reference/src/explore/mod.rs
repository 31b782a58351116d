//! Every order of steps up to a bound, with exact truth of each assertion.

mod across;
mod duties;
mod outcomes;
mod search;
mod show;
mod store;
pub mod truth;

pub use across::{across, BreakAcross, FoundAcross};
pub use duties::{find, seek, Run, Sought};
pub use outcomes::{has_ended, last_values, last_view, outcomes, Final, Outcomes};
pub use search::{explore, reachable, Bounds, Break, Cut, Fault, Found, Outcome};
pub use show::describe;
pub use store::ROOM;

#[cfg(test)]
mod tests;
