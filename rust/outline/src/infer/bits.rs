//! Sets of sampled states.

/// A set of states by their numbers.
#[derive(Debug, Clone, PartialEq, Eq)]
pub struct Bits(Vec<u64>);

impl Bits {
    /// No state, of so many.
    pub fn none(of: usize) -> Bits {
        Bits(vec![0; of.div_ceil(64)])
    }

    pub fn add(&mut self, state: usize) {
        self.0[state / 64] |= 1 << (state % 64);
    }

    pub fn has(&self, state: usize) -> bool {
        self.0[state / 64] >> (state % 64) & 1 == 1
    }

    pub fn remove(&mut self, other: &Bits) {
        self.0.iter_mut().zip(&other.0).for_each(|(own, other)| *own &= !other);
    }

    pub fn is_empty(&self) -> bool {
        self.0.iter().all(|word| *word == 0)
    }

    /// Is some state in both?
    pub fn meets(&self, other: &Bits) -> bool {
        self.0.iter().zip(&other.0).any(|(own, other)| own & other != 0)
    }

    /// Is every state in the other, too?
    pub fn is_within(&self, other: &Bits) -> bool {
        self.0.iter().zip(&other.0).all(|(own, other)| own & !other == 0)
    }

    /// The numbers of its states, in order.
    pub fn numbers(&self) -> impl Iterator<Item = usize> + '_ {
        (0..self.0.len() * 64).filter(|state| self.has(*state))
    }
}

#[cfg(test)]
mod tests {
    use super::*;

    #[test]
    fn sets_are_told_apart() {
        let mut few = Bits::none(100);
        few.add(3);
        let mut more = few.clone();
        more.add(70);
        assert!(few.is_within(&more) && !more.is_within(&few) && few.meets(&more));
        assert_eq!(more.numbers().collect::<Vec<usize>>(), [3, 70]);
        more.remove(&few);
        assert!(!few.meets(&more) && !more.is_empty() && more.has(70));
    }
}
