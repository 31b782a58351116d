//! Instructions: an access to a shared word with notes, or a branch.

use super::written::{self, Half};
use crate::formula::{Formula, Test, Value};
use std::rc::Rc;

/// One instruction with its operands.
#[derive(Clone, Debug, PartialEq, Eq)]
pub enum Instruction {
    /// One step: at most one access, and registers that are set with it. All formulas are worked out before the step.
    /// An assignment is a note without an access, a pair an access with a note.
    Act {
        access: Option<Access>,
        notes: Vec<Note>,
    },
    Branch {
        test: Rc<Test>,
        target: u8,
    },
}

/// What is done to a shared word.
#[derive(Clone, Debug, PartialEq, Eq)]
pub enum Access {
    Load {
        register: u8,
        word: u8,
        acquiring: bool,
    },
    Store {
        word: u8,
        value: Rc<Value>,
        releasing: bool,
    },
    Swap {
        word: u8,
        value: Rc<Value>,
    },
    /// A swap that keeps the old value in the register.
    Exchange {
        register: u8,
        word: u8,
        value: Rc<Value>,
    },
    /// The same, of the old value plus this one.
    FetchAdd {
        register: u8,
        word: u8,
        value: Rc<Value>,
    },
}

/// A register with the value that it is given.
#[derive(Clone, Debug, PartialEq, Eq)]
pub struct Note {
    pub register: u8,
    pub value: Rc<Value>,
}

impl Note {
    pub fn new(register: u8, value: impl Into<Rc<Value>>) -> Note {
        Note { register, value: value.into() }
    }
}

impl From<Access> for Instruction {
    fn from(access: Access) -> Instruction {
        Instruction::Act { access: Some(access), notes: Vec::new() }
    }
}

impl Access {
    /// The shared word.
    pub fn word(&self) -> u8 {
        match self {
            Access::Load { word, .. }
            | Access::Store { word, .. }
            | Access::Swap { word, .. }
            | Access::Exchange { word, .. }
            | Access::FetchAdd { word, .. } => *word,
        }
    }

    /// The register that gets the value read, if there is one.
    pub fn result(&self) -> Option<u8> {
        match self {
            Access::Load { register, .. }
            | Access::Exchange { register, .. }
            | Access::FetchAdd { register, .. } => Some(*register),
            Access::Store { .. } | Access::Swap { .. } => None,
        }
    }

    /// The value that is worked out before the step, if there is one.
    pub fn operand(&self) -> Option<&Rc<Value>> {
        match self {
            Access::Load { .. } => None,
            Access::Store { value, .. }
            | Access::Swap { value, .. }
            | Access::Exchange { value, .. }
            | Access::FetchAdd { value, .. } => Some(value),
        }
    }

    /// Operation, a and b of the access alone.
    fn codes(&self) -> (u8, u8, u8) {
        match self {
            Access::Load { register, word, acquiring } => {
                (1 + u8::from(*acquiring), *register, *word)
            }
            Access::Store { word, releasing, .. } => (3 + u8::from(*releasing), *word, 0),
            Access::Swap { word, .. } => (5, *word, 0),
            Access::Exchange { register, word, .. } => (7, *word, *register),
            Access::FetchAdd { register, word, .. } => (8, *word, *register),
        }
    }
}

/// What is added to the operation of a store or a swap that has a note.
const WITH_NOTE: u8 = 6;

impl Instruction {
    /// register := value
    pub fn assign(register: u8, value: impl Into<Rc<Value>>) -> Instruction {
        Instruction::Act { access: None, notes: vec![Note::new(register, value)] }
    }

    /// Two assignments at once.
    pub fn trade(first: Note, second: Note) -> Instruction {
        Instruction::Act { access: None, notes: vec![first, second] }
    }

    /// A store or a swap with a note.
    pub fn pair(access: Access, note: Note) -> Instruction {
        Instruction::Act { access: Some(access), notes: vec![note] }
    }

    pub fn is_branch(&self) -> bool {
        matches!(self, Instruction::Branch { .. })
    }

    /// The access, if there is one.
    pub fn access(&self) -> Option<&Access> {
        match self {
            Instruction::Act { access, .. } => access.as_ref(),
            Instruction::Branch { .. } => None,
        }
    }

    /// The registers that are given a formula's value.
    pub fn notes(&self) -> &[Note] {
        match self {
            Instruction::Act { notes, .. } => notes,
            Instruction::Branch { .. } => &[],
        }
    }

    /// The note of a pair: of an instruction that has an access too.
    pub fn pair_note(&self) -> Option<&Note> {
        self.access().and_then(|_| self.notes().first())
    }

    pub fn is_pair(&self) -> bool {
        self.pair_note().is_some()
    }

    /// The instruction that rules 1 to 16 speak of: a pair without its note, any other as it is.
    pub fn first_half(&self) -> Instruction {
        self.access().map_or_else(|| self.clone(), |access| access.clone().into())
    }

    /// The shared word that is read or written, if there is one.
    pub fn word(&self) -> Option<u8> {
        self.access().map(Access::word)
    }

    /// The register that the access sets, if there is one.
    pub fn result(&self) -> Option<u8> {
        self.access().and_then(Access::result)
    }

    /// Every register that is set.
    pub fn registers_set(&self) -> Vec<u8> {
        self.result().into_iter().chain(self.notes().iter().map(|note| note.register)).collect()
    }

    /// The formulas that are worked out before the step, in the order in which they are written.
    pub fn operands(&self) -> Vec<Formula> {
        if let Instruction::Branch { test, .. } = self {
            return vec![Formula::Test(test.clone())];
        }
        let access = self.access().and_then(Access::operand);
        let values = access.into_iter().chain(self.notes().iter().map(|note| &note.value));
        values.map(|value| Formula::Value(value.clone())).collect()
    }

    /// The fields, with the numbers of the operands.
    pub fn fields(&self, formulas: &[u16]) -> written::Instruction {
        let mut halves = self.halves();
        // A load is alone and has no operand: its number stays 0.
        for (half, &formula) in halves.iter_mut().zip(formulas) {
            half.formula = formula;
        }
        written::Instruction { first: halves[0], second: halves.get(1).copied() }
    }

    /// The halves, without the numbers of the operands.
    fn halves(&self) -> Vec<Half> {
        let half = |operation, a, b| Half { operation, a, b, formula: 0 };
        if let Instruction::Branch { target, .. } = self {
            return vec![half(6, *target, 0)];
        }
        let access = self.access().map(|access| {
            let (operation, a, b) = access.codes();
            half(if self.is_pair() { operation + WITH_NOTE } else { operation }, a, b)
        });
        let notes = self.notes().iter().map(|note| half(0, note.register, 0));
        let mut halves: Vec<Half> = access.into_iter().chain(notes).collect();
        if self.access().is_none() && halves.len() == 2 {
            halves[0].operation = 12;
        }
        halves
    }
}
