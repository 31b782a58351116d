//! Memory that holds a pattern and is lent to a task as its stack: where the pattern is gone
//! afterwards, the task was. On x86-64, as the archives are.

use std::arch::asm;

/// A stack is aligned by so many bytes, so a finer count would tell no more.
const WORD: usize = size_of::<u128>();
/// Four times as much as a call is ever given: one that takes too much is seen, and harms nothing.
const WORDS: usize = (1 << 20) / WORD;

pub struct Painted {
    words: Vec<u128>,
}

impl Default for Painted {
    fn default() -> Painted {
        Painted::new()
    }
}

impl Painted {
    pub fn new() -> Painted {
        Painted { words: (0..WORDS).map(pattern).collect() }
    }

    /// How many bytes of stack a task takes: from its call down to the lowest that it wrote. What
    /// it reserves below and leaves alone is not among them.
    pub fn taken(&mut self, task: &mut dyn FnMut()) -> usize {
        self.lend(task);
        let changed = |(place, &word): (usize, &u128)| word != pattern(place);
        let lowest = self.words.iter().enumerate().position(changed).unwrap_or(WORDS);
        assert!(lowest > 0, "a task took all {} bytes of its stack", WORDS * WORD);
        for (place, word) in self.words.iter_mut().enumerate().skip(lowest) {
            *word = pattern(place);
        }
        (WORDS - lowest) * WORD
    }

    /// Does a task with the stack at the end of the memory.
    fn lend(&mut self, mut task: &mut dyn FnMut()) {
        // SAFETY: the memory is this function's alone until the task is done, and its end is
        // aligned as a stack has to be. A C function leaves r12 as it was, so that the stack is
        // the former one again. `enter` does not unwind.
        unsafe {
            asm!(
                "mov r12, rsp",
                "mov rsp, {end}",
                "call {enter}",
                "mov rsp, r12",
                end = in(reg) self.words.as_mut_ptr_range().end,
                enter = sym enter,
                in("rdi") &raw mut task,
                out("r12") _,
                clobber_abi("C"),
            );
        }
    }
}

/// Does a task; a panic in it ends the program.
extern "C" fn enter(task: *mut &mut dyn FnMut()) {
    // SAFETY: the pointer is to a variable of `lend`, which does not use it meanwhile.
    unsafe { (*task)() }
}

/// Each place has a word of its own, so that one copied to another place is seen there.
fn pattern(place: usize) -> u128 {
    (place as u128 + 1).wrapping_mul(0x9E37_79B9_7F4A_7C15_F39C_C060_5CED_C835)
}

#[cfg(test)]
mod tests {
    use super::*;
    use std::hint::black_box;
    use std::mem::MaybeUninit;

    /// What stands around a function's own bytes.
    const AROUND: usize = 512;

    #[inline(never)]
    fn fill<const BYTES: usize>() {
        black_box(&mut [0; BYTES]).fill(1_u8);
    }

    fn is_about(bytes: usize, taken: usize) -> bool {
        (bytes..bytes + AROUND).contains(&taken)
    }

    #[test]
    fn a_function_takes_the_bytes_that_it_fills() {
        let memory = &mut Painted::new();
        assert!(is_about(0, memory.taken(&mut || ())));
        assert!(is_about(1000, memory.taken(&mut fill::<1000>)));
        assert!(is_about(200_000, memory.taken(&mut fill::<200_000>)));
    }

    /// Or the most that a call ever took would be told of all that come after it.
    #[test]
    fn what_came_before_is_forgotten() {
        let memory = &mut Painted::new();
        let before = memory.taken(&mut fill::<3000>);
        memory.taken(&mut fill::<100_000>);
        assert_eq!(memory.taken(&mut fill::<3000>), before);
    }

    #[test]
    fn one_byte_at_the_bottom_counts() {
        let mut task = || {
            let mut room = MaybeUninit::<[u8; 64_000]>::uninit();
            // SAFETY: the room has a first byte.
            unsafe { black_box(room.as_mut_ptr().cast::<u8>()).write(1) };
        };
        assert!(is_about(64_000, Painted::new().taken(&mut task)));
    }
}
