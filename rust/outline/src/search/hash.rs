//! Tables of formulas: the search asks them at every step, and formulas are long, so that hashing them is most of its work.

use std::collections::{HashMap, HashSet};
use std::hash::{BuildHasherDefault, Hasher};

/// A table by formulas.
pub type Table<K, V> = HashMap<K, V, BuildHasherDefault<Mix>>;
/// A set of formulas.
pub type Set<K> = HashSet<K, BuildHasherDefault<Mix>>;

/// An odd number whose bits have no pattern.
const FACTOR: u64 = 0x9E37_79B9_7F4A_7C15;

/// A fast hash for keys that nobody chooses to collide: one multiplication for each word.
#[derive(Debug, Default, Clone, Copy)]
pub struct Mix(u64);

impl Mix {
    fn add(&mut self, word: u64) {
        self.0 = (self.0.rotate_left(5) ^ word).wrapping_mul(FACTOR);
    }
}

impl Hasher for Mix {
    fn write(&mut self, bytes: &[u8]) {
        bytes.iter().for_each(|byte| self.add(u64::from(*byte)));
    }
    fn write_u8(&mut self, n: u8) {
        self.add(u64::from(n));
    }
    fn write_u32(&mut self, n: u32) {
        self.add(u64::from(n));
    }
    fn write_u64(&mut self, n: u64) {
        self.add(n);
    }
    fn write_usize(&mut self, n: usize) {
        self.add(n as u64);
    }
    fn write_isize(&mut self, n: isize) {
        self.add(n as u64);
    }
    /// Tables use the low bits, and the multiplication mixes the high ones best.
    fn finish(&self) -> u64 {
        self.0.rotate_left(26)
    }
}

#[cfg(test)]
mod tests {
    use super::*;
    use crate::terms::{constant, equal, holds, register, A};
    use std::hash::{BuildHasher, Hash};

    fn hashed(key: &impl Hash) -> u64 {
        BuildHasherDefault::<Mix>::default().hash_one(key)
    }

    #[test]
    fn equal_formulas_have_one_hash_and_different_ones_spread() {
        let formula = |r: u8, v: u8| -> A { holds(&equal(&register(r), &constant(v))) };
        assert_eq!(hashed(&formula(1, 2)), hashed(&formula(1, 2)));
        let pairs = (1..=16).flat_map(|r| (0..64).map(move |v| (r, v)));
        let low: HashSet<u64> = pairs.map(|(r, v)| hashed(&formula(r, v)) & 0xFFFF).collect();
        assert!(low.len() > 900, "{} of 1024 differ in their low bits", low.len());
    }
}
