//! Which records of a kind are kept, and the numbers that they get.

/// A mark for each record of a kind. Records count from 1; 0 names none.
pub struct Kept(Vec<bool>);

impl Kept {
    pub fn none_of(count: usize) -> Kept {
        Kept(vec![false; count])
    }

    pub fn keep(&mut self, number: u16) {
        if let Some(index) = index(number) {
            self.0[index] = true;
        }
    }

    pub fn has(&self, number: u16) -> bool {
        index(number).is_some_and(|index| self.0[index])
    }

    /// Leaves those that are kept, in their order.
    pub fn filter<T>(&self, records: &mut Vec<T>) {
        let mut marks = self.0.iter();
        records.retain(|_| *marks.next().expect("a mark for each record"));
    }

    /// The new number of each record by its old one: it counts those kept up to it. 0 stays 0.
    pub fn numbers(&self) -> Vec<u16> {
        let counted = self.0.iter().scan(0, |count, &kept| {
            *count += u16::from(kept);
            Some(*count)
        });
        [0].into_iter().chain(counted).collect()
    }
}

fn index(number: u16) -> Option<usize> {
    usize::from(number).checked_sub(1)
}
