//! An image of each code that the other sets have.

use super::{images, rules};
use reference::checker::check;
use std::collections::BTreeMap;

/// Longer images are left out.
const LONGEST: usize = 8000;

/// The first image of each code but 0.
pub fn by_code() -> BTreeMap<u16, Vec<u8>> {
    let mut first = BTreeMap::new();
    for case in images::cases().into_iter().chain(rules::cases()) {
        let code = check(&case.image).code;
        if code != 0 && case.image.len() <= LONGEST {
            first.entry(code).or_insert(case.image);
        }
    }
    first
}
