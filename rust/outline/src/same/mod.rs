//! Is the program of an image the program of a C file, instruction by instruction? Words and registers are told apart by
//! where they stand, since an image has no names for them.

use crate::c::program::Whole;
use crate::c::At;
use reference::formula::{Formula, Test, Value};
use reference::image::{Access, Instruction, Note, Program};

/// Where the two programs part, and how.
#[derive(Debug, Clone, PartialEq, Eq)]
pub struct Difference {
    /// The place in the C file.
    pub at: At,
    /// Thread and point of the image, if a point is meant.
    pub place: Option<(u8, u8)>,
    pub text: String,
}

/// What goes with what so far: a number of the image for each of the C file.
struct Matching<'a> {
    whole: &'a Whole,
    image: &'a Program,
    words: Vec<Option<u8>>,
    registers: Vec<Option<u8>>,
    /// Registers of the image that no instruction reads but to set them again.
    auxiliary: Vec<u8>,
}

type Same = Result<(), String>;

/// The first difference, if there is one; and else the image's auxiliary registers, which were left out.
pub fn difference(whole: &Whole, image: &Program) -> Result<Vec<u8>, Difference> {
    let of_c = whole.program(image.header.counts.range);
    let first = whole.functions[0].at;
    let parted = |at: At, place: Option<(u8, u8)>, text: String| Difference { at, place, text };
    if of_c.threads.len() != image.threads.len() {
        let text = format!(
            "the file has {} threads, the image {}",
            of_c.threads.len(),
            image.threads.len()
        );
        return Err(parted(first, None, text));
    }
    let mut matching = Matching {
        whole,
        image,
        words: vec![None; whole.words.len()],
        registers: vec![None; of_c.header.owners.len()],
        auxiliary: auxiliary(image),
    };
    for (thread, function) in (1u8..).zip(&whole.functions) {
        let theirs = &image.threads[usize::from(thread) - 1];
        for (point, (placed, other)) in (0u8..).zip(function.code.placed.iter().zip(theirs)) {
            let same = matching.instruction(&placed.instruction, other);
            same.map_err(|text| parted(placed.at, Some((thread, point)), text))?;
        }
        let (mine, theirs) = (function.code.placed.len(), theirs.len());
        if mine != theirs {
            let at = function.code.placed.get(theirs).map_or(function.code.end, |placed| placed.at);
            let text = format!(
                "this thread has {mine} instructions in the file, and {theirs} in the image"
            );
            return Err(parted(at, Some((thread, mine.min(theirs) as u8)), text));
        }
    }
    matching.starts().map_err(|(at, text)| parted(at, None, text))?;
    Ok(matching.auxiliary)
}

/// Registers that no branch, store or other register depends on.
fn auxiliary(image: &Program) -> Vec<u8> {
    let all: Vec<u8> = (1..=image.header.owners.len() as u8).collect();
    let is_noted = |register: &u8| {
        let sets = |one: &&Instruction| one.registers_set().contains(register);
        let mut setting = image.threads.iter().flatten().filter(sets).peekable();
        setting.peek().is_some() && setting.all(|one| one.is_pair())
    };
    let is_read = |register: &u8| {
        let named = |formula: &Formula| match formula {
            Formula::Value(value) => crate::terms::registers_of(value.as_ref()).contains(register),
            Formula::Test(test) => crate::terms::registers_of(test.as_ref()).contains(register),
            Formula::Interval(_) | Formula::Assertion(_) => false,
        };
        let own =
            |one: &Instruction| one.pair_note().is_some_and(|note| note.register == *register);
        let reads = |one: &Instruction| {
            let operands = one.operands();
            let count = operands.len() - usize::from(own(one));
            operands[..count].iter().any(named)
        };
        image.threads.iter().flatten().any(reads)
    };
    all.into_iter().filter(|register| is_noted(register) && !is_read(register)).collect()
}

/// Two numbers go with each other if neither goes with another one.
fn goes_with(list: &mut [Option<u8>], mine: u8, other: u8) -> bool {
    let taken =
        list.iter().enumerate().any(|(n, with)| *with == Some(other) && n + 1 != usize::from(mine));
    match &mut list[usize::from(mine) - 1] {
        _ if taken => false,
        Some(with) => *with == other,
        free => {
            *free = Some(other);
            true
        }
    }
}

fn same_if(same: bool, text: &str) -> Same {
    match same {
        true => Ok(()),
        false => Err(text.into()),
    }
}

impl Matching<'_> {
    fn instruction(&mut self, mine: &Instruction, other: &Instruction) -> Same {
        match (mine, other) {
            (
                Instruction::Branch { test, target },
                Instruction::Branch { test: theirs, target: to },
            ) => {
                self.test(test, theirs)?;
                same_if(target == to, "the branch goes to another point")
            }
            (
                Instruction::Act { access, notes },
                Instruction::Act { access: theirs, notes: others },
            ) => {
                match (access, theirs) {
                    (None, None) => {}
                    (Some(access), Some(theirs)) => self.access(access, theirs)?,
                    _ => return Err("one is an access to a word, the other is none".into()),
                }
                let left_out =
                    |note: &&Note| theirs.is_some() && self.auxiliary.contains(&note.register);
                let others: Vec<&Note> = others.iter().filter(|note| !left_out(note)).collect();
                self.notes(notes, &others)
            }
            _ => Err("one is a branch, the other is none".into()),
        }
    }

    fn notes(&mut self, mine: &[Note], others: &[&Note]) -> Same {
        same_if(mine.len() == others.len(), "another number of registers is set")?;
        mine.iter().zip(others).try_for_each(|(note, other)| {
            self.value(&note.value, &other.value)?;
            self.register(note.register, other.register)
        })
    }

    fn access(&mut self, mine: &Access, other: &Access) -> Same {
        let kind = |access: &Access| match access {
            Access::Load { acquiring: false, .. } => "a relaxed load",
            Access::Load { .. } => "an acquiring load",
            Access::Store { releasing: false, .. } => "a relaxed store",
            Access::Store { .. } => "a releasing store",
            Access::Swap { .. } => "a swap",
            Access::Exchange { .. } => "an exchange",
            Access::FetchAdd { .. } => "a fetch-add",
        };
        let (one, two) = (kind(mine), kind(other));
        same_if(one == two, &format!("the file has {one}, the image {two}"))?;
        same_if(goes_with(&mut self.words, mine.word(), other.word()), "another word is accessed")?;
        if let (Some(value), Some(theirs)) = (mine.operand(), other.operand()) {
            self.value(value, theirs)?;
        }
        match (mine.result(), other.result()) {
            (Some(register), Some(theirs)) => self.register(register, theirs),
            _ => Ok(()),
        }
    }

    fn register(&mut self, mine: u8, other: u8) -> Same {
        same_if(goes_with(&mut self.registers, mine, other), "another register is meant")
    }

    fn value(&mut self, mine: &Value, other: &Value) -> Same {
        match (mine, other) {
            (Value::Register(a), Value::Register(b)) => self.register(*a, *b),
            (Value::Sum(a, b), Value::Sum(c, d)) => {
                self.value(a, c)?;
                self.value(b, d)
            }
            _ => same_if(mine == other, "another value is worked out"),
        }
    }

    fn test(&mut self, mine: &Test, other: &Test) -> Same {
        match (mine, other) {
            (Test::Equal(a, b), Test::Equal(c, d)) | (Test::Less(a, b), Test::Less(c, d)) => {
                self.value(a, c)?;
                self.value(b, d)
            }
            (Test::Not(a), Test::Not(b)) => self.test(a, b),
            (Test::And(a, b), Test::And(c, d)) | (Test::Or(a, b), Test::Or(c, d)) => {
                self.test(a, c)?;
                self.test(b, d)
            }
            _ => same_if(mine == other, "another test is made"),
        }
    }

    /// Words begin with the same values, and registers with 0 where the file says so.
    fn starts(&self) -> Result<(), (At, String)> {
        let header = &self.image.header;
        for (word, with) in self.whole.words.iter().zip(&self.words) {
            let other = with.map(|with| header.start[usize::from(with) - 1]);
            if let Some(other) = other.filter(|other| *other != word.start) {
                let text = format!(
                    "`{}` begins with {} in the file, and with {other} in the image",
                    word.name, word.start
                );
                return Err((word.at, text));
            }
        }
        let locals = self.whole.functions.iter().flat_map(|function| &function.code.locals);
        for (local, with) in locals.zip(&self.registers) {
            let is_open = with.is_some_and(|with| header.marks[usize::from(with) - 1] == 0);
            if local.is_zero && is_open {
                let name = local.name.clone().unwrap_or_default();
                return Err((
                    local.at,
                    format!("`{name}` begins with 0 in the file, and with anything in the image"),
                ));
            }
        }
        Ok(())
    }
}
