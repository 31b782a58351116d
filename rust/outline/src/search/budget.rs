//! A bound on the search in tries, so that the same text gives the same answer on every machine.

/// Tries for one obligation or one named step. The examples take up to some 16,000.
pub const TRIES: u64 = 200_000;

/// Tries for one way of searching before another has its turn, and for one obligation before the others have theirs.
pub const SHARE: u64 = 25_000;

/// Tries beyond a share for all obligations and named steps of an outline together.
pub const BEYOND: u64 = 600_000;

/// How many tries are left.
#[derive(Debug, Clone, Copy)]
pub struct Budget {
    /// For one obligation, and for the one at hand.
    most: u64,
    allowed: u64,
    left: u64,
    /// Tries made before it was renewed the last time, and the most between two times.
    made: (u64, u64),
}

impl Default for Budget {
    fn default() -> Self {
        Budget::of(TRIES)
    }
}

impl Budget {
    pub fn of(most: u64) -> Budget {
        Budget { most, allowed: most, left: most, made: (0, 0) }
    }

    /// One try; false if none is left.
    pub fn spend(&mut self) -> bool {
        let more = self.left > 0;
        self.left = self.left.saturating_sub(1);
        more
    }

    /// Full again, for the next obligation.
    pub fn renew(&mut self) {
        self.renew_within(self.most);
    }

    /// So many tries for the next obligation, if they are fewer than those that one may have.
    pub fn renew_within(&mut self, tries: u64) {
        self.made = self.made();
        self.allowed = tries.min(self.most);
        self.left = self.allowed;
    }

    /// Sets aside what is more than a share, and says how much that is.
    pub fn set_aside(&mut self, share: u64) -> u64 {
        let aside = self.left.saturating_sub(share);
        self.left -= aside;
        aside
    }

    /// What was set aside is there again.
    pub fn take_back(&mut self, aside: u64) {
        self.left += aside;
    }

    pub fn is_spent(&self) -> bool {
        self.left == 0
    }

    /// All tries that there were for the obligation at hand.
    pub fn allowed(&self) -> u64 {
        self.allowed
    }

    /// All tries made so far, and the most for one purpose.
    pub fn made(&self) -> (u64, u64) {
        let now = self.allowed - self.left;
        (self.made.0 + now, self.made.1.max(now))
    }
}
