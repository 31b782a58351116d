//! Litmus tests in herd7's C form: read, answered in herd7's words, proved where nothing happens, and written.

pub mod answer;
pub mod prove;
pub mod read;
pub mod said;
pub mod start;
pub mod write;

use crate::c::program::Whole;
use crate::c::values::Fits;
use crate::text::condition::Condition;
use crate::text::print::Names;
use reference::image::Program;

/// A test that was read.
pub struct Litmus {
    pub name: String,
    pub whole: Whole,
    pub names: Names,
    pub fits: Fits,
    pub condition: Condition,
    /// The condition as it is written.
    pub told: String,
    /// The registers and words that states are told by.
    pub shown: Vec<Shown>,
}

/// A register or a word, by its number, as herd7 writes it.
#[derive(Debug, Clone, PartialEq, Eq, PartialOrd, Ord)]
pub enum Shown {
    /// The thread counts from 0.
    Register {
        thread: usize,
        number: u8,
        name: String,
    },
    Word {
        number: u8,
        name: String,
    },
}

impl Shown {
    pub fn name(&self) -> String {
        match self {
            Shown::Register { thread, name, .. } => format!("{thread}:{name}"),
            Shown::Word { name, .. } => format!("[{name}]"),
        }
    }
}

impl Litmus {
    pub fn program(&self) -> Program {
        self.whole.program(self.fits.range)
    }
}
