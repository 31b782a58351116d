//! Threads put together: words and registers by names that the text form can have.

use super::access::Word;
use super::lower::Code;
use super::{refuse, At, Read};
use crate::text::lex::KEYWORDS;
use crate::text::parse_source::check_size;
use crate::text::print::Names;
use reference::checker::limits;
use reference::formula::parse::Counts;
use reference::formula::{Assertion, Formula};
use reference::image::{Header, Instruction, Program, Thread};
use std::collections::BTreeSet;
use std::rc::Rc;

/// A thread by the name of its function.
#[derive(Debug, Clone)]
pub struct Function {
    pub name: String,
    pub code: Code,
    pub at: At,
}

/// Words and threads of a C text.
#[derive(Debug, Clone)]
pub struct Whole {
    pub words: Vec<Word>,
    pub functions: Vec<Function>,
}

impl Whole {
    /// Refuses what an image has no room for.
    pub fn check_room(&self) -> Read<()> {
        let too_many = |at: At, what: &str, most: u8| -> Read<()> {
            refuse(at, format!("this is one of the {what} too many: a program has at most {most}"))
        };
        if let Some(word) = self.words.get(usize::from(limits::WORDS)) {
            return too_many(word.at, "words", limits::WORDS);
        }
        if let Some(function) = self.functions.get(usize::from(limits::THREADS)) {
            return too_many(function.at, "threads", limits::THREADS);
        }
        let mut locals = self.functions.iter().flat_map(|function| &function.code.locals);
        if let Some(local) = locals.nth(usize::from(limits::REGISTERS)) {
            return too_many(local.at, "variables and values in between", limits::REGISTERS);
        }
        self.functions.iter().try_for_each(|function| {
            let points = usize::from(limits::POINTS);
            if let Some(placed) = function.code.placed.get(points - 1) {
                return too_many(placed.at, "instructions", limits::POINTS - 1);
            }
            function.code.placed.iter().try_for_each(|placed| fits(&placed.instruction, placed.at))
        })
    }

    /// Words, registers and threads by names, each of which the text form can have, and none of two kinds.
    pub fn names(&self) -> Names {
        let mut taken: BTreeSet<String> = KEYWORDS.iter().map(|word| word.to_string()).collect();
        let words = self.words.iter().map(|word| fresh(&mut taken, &word.name)).collect();
        let threads: Vec<String> =
            self.functions.iter().map(|function| fresh(&mut taken, &function.name)).collect();
        let lists: Vec<Vec<String>> =
            self.functions.iter().map(|function| registers(&taken, &function.code)).collect();
        let mut all = Vec::new();
        for (number, list) in lists.iter().enumerate() {
            let others = || lists.iter().enumerate().filter(|(other, _)| *other != number);
            let is_alike = |name: &String| others().any(|(_, other)| other.contains(name));
            all.extend(list.iter().map(|name| match is_alike(name) {
                true => format!("{}:{name}", threads[number]),
                false => name.clone(),
            }));
        }
        Names { words, registers: all, threads, ..Names::default() }
    }

    /// The names of each thread's registers, without the thread's.
    pub fn registers(&self, names: &Names) -> Vec<Vec<String>> {
        let mut rest = names.registers.iter();
        let plain = |name: &String| name.rsplit(':').next().unwrap_or_default().to_string();
        self.functions
            .iter()
            .map(|f| rest.by_ref().take(f.code.locals.len()).map(plain).collect())
            .collect()
    }

    /// The program with this range, in which every assertion is `true`.
    pub fn program(&self, range: u8) -> Program {
        let owners: Vec<u8> = (1..)
            .zip(&self.functions)
            .flat_map(|(thread, function)| vec![thread; function.code.locals.len()])
            .collect();
        let counts = Counts {
            threads: self.functions.len() as u8,
            words: self.words.len() as u8,
            registers: owners.len() as u8,
            range,
        };
        let start = self.words.iter().map(|word| word.start).collect();
        let code = |function: &Function| -> Thread {
            function.code.placed.iter().map(|placed| placed.instruction.clone()).collect()
        };
        let threads: Vec<Thread> = self.functions.iter().map(code).collect();
        let nothing = Rc::new(Assertion::truth());
        let outline =
            threads.iter().map(|thread| vec![nothing.clone(); thread.len() + 1]).collect();
        Program { header: Header::cleared(counts, start, owners), threads, outline }
    }
}

/// Every formula of an instruction fits into its record.
fn fits(instruction: &Instruction, at: At) -> Read<()> {
    let size = |formula: &Formula| match formula {
        Formula::Value(value) => check_size(value.as_ref(), at.place),
        Formula::Test(test) => check_size(test.as_ref(), at.place),
        Formula::Interval(_) | Formula::Assertion(_) => Ok(()),
    };
    let sizes = instruction.operands().iter().try_for_each(size);
    sizes.or_else(|mistake| refuse(at, mistake.text))
}

/// A name that nothing has yet: as it is, or with an underscore and a number.
fn fresh(taken: &mut BTreeSet<String>, name: &str) -> String {
    let numbered = (2..).map(|number| format!("{name}_{number}"));
    let mut all = std::iter::once(name.to_string()).chain(numbered);
    let free = all.find(|name| !taken.contains(name)).unwrap_or_default();
    taken.insert(free.clone());
    free
}

/// Names for a thread's registers; those of values in between are numbered.
fn registers(taken: &BTreeSet<String>, code: &Code) -> Vec<String> {
    let mut taken = taken.clone();
    let named =
        |local: &super::lower::Local| fresh(&mut taken, local.name.as_deref().unwrap_or("got"));
    code.locals.iter().map(named).collect()
}
