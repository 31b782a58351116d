//! How often each code came.

use std::collections::BTreeMap;
use std::fmt;

/// Answers by their code.
pub struct Tally {
    counted: &'static str,
    codes: BTreeMap<u16, u64>,
}

impl Tally {
    pub fn of(counted: &'static str) -> Tally {
        Tally { counted, codes: BTreeMap::new() }
    }

    pub fn count(&mut self, code: u16) {
        *self.codes.entry(code).or_default() += 1;
    }

    /// Those of the codes that never came.
    pub fn missing(&self, codes: &[u16]) -> Vec<u16> {
        codes.iter().copied().filter(|code| !self.codes.contains_key(code)).collect()
    }
}

impl fmt::Display for Tally {
    fn fmt(&self, out: &mut fmt::Formatter<'_>) -> fmt::Result {
        let Tally { counted, codes } = self;
        write!(out, "{} {counted}, none differs; code: {counted}", codes.values().sum::<u64>())?;
        for (code, count) in codes {
            write!(out, "  {code}: {count}")?;
        }
        Ok(())
    }
}
