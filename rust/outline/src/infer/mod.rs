//! `infer`: from a program and what is wished of it to an outline that is accepted.
//!
//! `sample` has states of the program, `cases` tells points apart, `clauses` and `ground` have what is true in them, `backward`
//! the rules read backwards, `have` and `options` what an obligation may rest on, `covered` what is asked for, `fixpoint` and
//! `claims` choose, `certify` asks the search, `prune` leaves out, `assemble` writes assertions (`packed`, `modes`, `mixed`,
//! `in_cases`), `guards` and `minimise` shorten, `wish` tells what is asked, `portfolio` tries one width after another, `leaves`
//! tells where ten are passed, and `wanting` what an open obligation of any outline would need. The checker judges.

mod assemble;
mod backward;
mod backward_further;
mod backward_write;
mod bits;
mod cases;
mod certify;
mod claims;
mod clauses;
mod covered;
mod fixpoint;
mod folded;
mod ground;
mod guards;
mod have;
mod in_cases;
mod leaves;
mod lets;
mod minimise;
mod mixed;
mod modes;
mod options;
mod packed;
mod portfolio;
mod prune;
mod sample;
mod templates;
mod wanting;
mod wish;
mod written;

pub use fixpoint::Stuck;
pub use leaves::too_many;
pub use portfolio::{infer, Answer, Found, NotFound, Tried, Watch, TRIES};
pub use sample::Place;
pub use wanting::{Before, Wanting};
pub use wish::{Breach, Wish};
pub use written::written;
