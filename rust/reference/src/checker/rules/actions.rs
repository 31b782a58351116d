//! The operands of the instruction, by the operations that a rule allows. A pair answers as its access alone.

use crate::formula::{Interval, Value};
use crate::image::{Access, Instruction, Note};
use std::rc::Rc;

/// A write to a word: the word has this value afterwards.
pub struct Write {
    pub word: u8,
    pub value: Rc<Value>,
}

impl Write {
    fn new(word: u8, value: &Rc<Value>) -> Write {
        Write { word, value: value.clone() }
    }

    /// both(one x, [x = f])
    pub fn settled(&self) -> Interval {
        Interval::one_equal(self.word, self.value.clone())
    }
}

/// A read of a word into a register.
pub struct Load {
    pub register: u8,
    pub word: u8,
}

impl Instruction {
    /// The assignments of an instruction without an access.
    pub fn assignments(&self) -> Option<&[Note]> {
        match self {
            Instruction::Act { access: None, notes } => Some(notes),
            _ => None,
        }
    }

    pub fn load(&self) -> Option<Load> {
        match self.access()? {
            Access::Load { register, word, .. } => Some(Load { register: *register, word: *word }),
            _ => None,
        }
    }

    /// What exchange and fetch-add read.
    pub fn fetched(&self) -> Option<Load> {
        match self.access()? {
            Access::Exchange { register, word, .. } | Access::FetchAdd { register, word, .. } => {
                Some(Load { register: *register, word: *word })
            }
            _ => None,
        }
    }

    /// What exchange and fetch-add write: f, and register + f.
    pub fn fetching(&self) -> Option<Write> {
        match self.access()? {
            Access::Exchange { word, value, .. } => Some(Write::new(*word, value)),
            Access::FetchAdd { register, word, value } => {
                let sum = Value::sum(Value::Register(*register), value.clone());
                Some(Write { word: *word, value: sum.into() })
            }
            _ => None,
        }
    }

    /// What an exchange writes.
    pub fn exchange(&self) -> Option<Write> {
        match self.access()? {
            Access::Exchange { word, value, .. } => Some(Write::new(*word, value)),
            _ => None,
        }
    }

    /// What a fetch-add adds to its word.
    pub fn fetch_add(&self) -> Option<Write> {
        match self.access()? {
            Access::FetchAdd { word, value, .. } => Some(Write::new(*word, value)),
            _ => None,
        }
    }

    pub fn store(&self) -> Option<Write> {
        match self.access()? {
            Access::Store { word, value, .. } => Some(Write::new(*word, value)),
            _ => None,
        }
    }

    pub fn releasing_store(&self) -> Option<Write> {
        match self.access()? {
            Access::Store { releasing: true, .. } => self.store(),
            _ => None,
        }
    }

    pub fn swap(&self) -> Option<Write> {
        match self.access()? {
            Access::Swap { word, value } => Some(Write::new(*word, value)),
            _ => None,
        }
    }

    pub fn store_or_swap(&self) -> Option<Write> {
        self.store().or_else(|| self.swap())
    }

    /// The word of a swap, exchange or fetch-add: the operations that cover.
    pub fn covered_word(&self) -> Option<u8> {
        self.swap().or_else(|| self.fetching()).map(|write| write.word)
    }

    /// The word of any operation that writes.
    pub fn written_word(&self) -> Option<u8> {
        self.store().map(|store| store.word).or_else(|| self.covered_word())
    }

    /// The word of an acquiring load or of an operation that covers: those that join views.
    pub fn joined_word(&self) -> Option<u8> {
        match self.access()? {
            Access::Load { word, acquiring: true, .. } => Some(*word),
            _ => self.covered_word(),
        }
    }
}
