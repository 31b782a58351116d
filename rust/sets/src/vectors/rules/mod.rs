//! Images about the rules: each rule justified and, changed in one place, not.

mod changes;
mod claims;
mod conditions;
mod duties;
pub mod frame;
mod grown;
mod limits;
mod pairs;
mod premises;
mod ranges;

use super::Case;

/// All cases of the set.
pub fn cases() -> Vec<Case> {
    let mut cases = changes::instances();
    cases.extend(changes::other_operations());
    cases.extend(changes::changed_sides());
    cases.extend(changes::other_rules());
    cases.extend(premises::cases());
    cases.extend(conditions::cases());
    cases.extend(limits::cases());
    cases.extend(ranges::cases());
    cases.extend(duties::cases());
    cases.extend(pairs::cases());
    cases.extend(grown::cases());
    cases.extend(claims::cases());
    cases
}
