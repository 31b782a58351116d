//! Text to instructions: a branch, assignments, or an access to a word, perhaps with a note.

use crate::terms::*;
use crate::text::lex::{Mistake, Place, Token, KEYWORDS};
use crate::text::parse_formula::Cursor;
use crate::text::parse_source::{at_number, check_size};
use crate::text::scope::Meaning;
use reference::formula::atoms::Atoms;
use reference::formula::nesting::Nesting;
use reference::image::{Access, Instruction, Note};

/// An instruction as it was read.
pub struct Read {
    pub instruction: Instruction,
    /// Where a branch goes, as it is written.
    pub jump: Option<Token>,
    /// The numbers that `@` asks for, one for each formula.
    pub numbers: Vec<Option<usize>>,
}

/// Reads an instruction of a thread.
pub fn instruction(c: &mut Cursor, thread: u8) -> Result<Read, Mistake> {
    let mut reader = Reader { c, thread, numbers: Vec::new() };
    let (instruction, jump) = match reader.c.take("if") {
        true => reader.branch()?,
        false => (reader.act()?, None),
    };
    Ok(Read { instruction, jump, numbers: reader.numbers })
}

/// An instruction in reading: registers and formulas are checked where they stand.
struct Reader<'c, 'a> {
    c: &'c mut Cursor<'a>,
    thread: u8,
    numbers: Vec<Option<usize>>,
}

impl Reader<'_, '_> {
    fn branch(&mut self) -> Result<(Instruction, Option<Token>), Mistake> {
        let place = self.c.line();
        let test = self.c.test()?;
        self.check(test.as_ref(), place)?;
        self.c.expect("goto")?;
        let jump = self.c.peek().clone();
        self.c.at += 1;
        self.numbers.push(at_number(self.c)?);
        Ok((Instruction::Branch { test, target: 0 }, Some(jump)))
    }

    /// All but a branch, by what stands on the left.
    fn act(&mut self) -> Result<Instruction, Mistake> {
        if self.c.take("swap") {
            let word = self.c.word()?;
            self.c.expect(":=")?;
            let value = self.operand()?;
            return self.noted(Access::Swap { word, value });
        }
        match self.c.meaning() {
            Some(Meaning::Register(_)) => self.move_to_register(),
            Some(Meaning::Word(word)) => {
                let word = *word;
                self.move_to_word(word)
            }
            None if moves_next(self.c) => {
                self.c.fail(format!("{} is not declared{}", self.c.peek().shown(), self.c.meant()))
            }
            _ => self.c.wanted("an instruction (or the thread's end)"),
        }
    }

    /// Assignment, trade, load, exchange or fetch-add.
    fn move_to_register(&mut self) -> Result<Instruction, Mistake> {
        let register = self.register()?;
        if self.c.take(",") {
            return self.trade(register);
        }
        if self.c.take(":=") {
            let value = self.operand()?;
            self.no_note("two registers are set in one step by `r, q := 1, 2`")?;
            return Ok(Instruction::assign(register, value));
        }
        let access = self.fetch(register)?;
        self.no_note("only a store or a swap takes a note")?;
        Ok(access.into())
    }

    /// Behind `REGISTER,`: the second register, and two values.
    fn trade(&mut self, first: u8) -> Result<Instruction, Mistake> {
        if matches!(self.c.meaning(), Some(Meaning::Word(_))) {
            let name = self.c.peek().shown();
            let text = format!("only registers are set together, and {name} is a word; a store has its note behind `|`");
            return self.c.fail(text);
        }
        let place = self.c.line();
        let second = self.register()?;
        if first == second {
            let text = format!("register {} is set twice in one step", self.called(first));
            return Err(Mistake { line: place, text });
        }
        self.c.expect(":=")?;
        let value = self.operand()?;
        self.c.expect(",")?;
        Ok(Instruction::trade(Note::new(first, value), Note::new(second, self.operand()?)))
    }

    fn move_to_word(&mut self, word: u8) -> Result<Instruction, Mistake> {
        self.c.at += 1;
        let releasing = self.c.take(":=rel");
        if !releasing && !self.c.take(":=") {
            return self.c.wanted("`:=` or `:=rel` behind a word");
        }
        if self.c.sees_next("acq") {
            return self.c.fail("`acq` belongs to a load, `<-acq`; a store may be `:=rel`".into());
        }
        let value = self.operand()?;
        self.noted(Access::Store { word, value, releasing })
    }

    /// A store or a swap, with what may stand behind it: `| REGISTER := VALUE`.
    fn noted(&mut self, access: Access) -> Result<Instruction, Mistake> {
        if self.c.sees_next(",") {
            return self.c.fail("a note stands behind `|`, as in `x := 1 | r := 0`".into());
        }
        if !self.c.take("|") {
            return Ok(access.into());
        }
        let register = self.note_register()?;
        if !self.c.take(":=") {
            return self.c.wanted("`:=` (a note is an assignment)");
        }
        let note = Note::new(register, self.operand()?);
        self.no_note("a step has one note")?;
        Ok(Instruction::pair(access, note))
    }

    /// The register that a note sets.
    fn note_register(&mut self) -> Result<u8, Mistake> {
        let name = self.c.peek().shown();
        match self.c.meaning() {
            Some(Meaning::Register(_)) => self.register(),
            Some(Meaning::Word(_)) => {
                self.c.fail(format!("a note sets a register, and {name} is a word"))
            }
            None if moves_next(self.c) => self.c.fail(format!("{name} is not declared")),
            _ => self.c.wanted("an assignment to a register as the note"),
        }
    }

    /// No note may stand here.
    fn no_note(&self, text: &str) -> Result<(), Mistake> {
        match self.c.sees_next("|") {
            true => self.c.fail(text.into()),
            false => Ok(()),
        }
    }

    /// What stands behind a register: `<-acq WORD`, or `<-` and a word, an exchange or a fetch-add.
    fn fetch(&mut self, register: u8) -> Result<Access, Mistake> {
        if self.c.take("<-acq") {
            if self.c.sees_next("exchange") || self.c.sees_next("fetch-add") {
                let text =
                    "a word is wanted: exchange and fetch-add acquire by themselves, behind `<-`";
                return self.c.fail(text.into());
            }
            return Ok(Access::Load { register, word: self.c.word()?, acquiring: true });
        }
        if !self.c.take("<-") {
            return self.c.wanted("`:=`, `<-` or `<-acq` behind a register");
        }
        if self.c.take("exchange") {
            let word = self.c.word()?;
            self.c.expect(":=")?;
            return Ok(Access::Exchange { register, word, value: self.new_value(register)? });
        }
        if self.c.take("fetch-add") {
            let word = self.c.word()?;
            self.c.expect("+")?;
            return Ok(Access::FetchAdd { register, word, value: self.new_value(register)? });
        }
        if self.c.sees_next("swap") {
            let text = "swap drops the old value; `exchange` hands it to the register";
            return self.c.fail(text.into());
        }
        if self.c.sees_next("rel") {
            return self.c.fail("`rel` belongs to a store, `:=rel`; a load may be `<-acq`".into());
        }
        Ok(Access::Load { register, word: self.c.word()?, acquiring: false })
    }

    /// The operand of an exchange or a fetch-add, which may not name the register that gets the old value.
    fn new_value(&mut self, result: u8) -> Result<V, Mistake> {
        let place = self.c.line();
        let value = self.operand()?;
        if value.has_register(result) {
            let text = "the register that gets the old value may not stand in the new one";
            return Err(Mistake { line: place, text: text.into() });
        }
        Ok(value)
    }

    /// A value that an instruction works out, with the number that it may ask for.
    fn operand(&mut self) -> Result<V, Mistake> {
        let place = self.c.line();
        let value = self.c.value()?;
        self.check(value.as_ref(), place)?;
        self.numbers.push(at_number(self.c)?);
        Ok(value)
    }

    /// The register that is next, if it is the thread's own.
    fn register(&mut self) -> Result<u8, Mistake> {
        let place = self.c.line();
        let Some(Meaning::Register(register)) = self.c.meaning() else {
            return self.c.wanted("a register");
        };
        let register = *register;
        self.c.at += 1;
        self.own(register, place)?;
        Ok(register)
    }

    /// Formulas of instructions fit a record, name own registers only and no word.
    fn check(&self, formula: &(impl Nesting + Atoms), place: Place) -> Result<(), Mistake> {
        check_size(formula, place)?;
        if !registers_only(formula) {
            let text = "words, unsync and cov may not stand in an instruction's formula";
            return Err(Mistake { line: place, text: text.into() });
        }
        registers_of(formula).into_iter().try_for_each(|register| self.own(register, place))
    }

    fn own(&self, register: u8, place: Place) -> Result<(), Mistake> {
        if self.c.scope.owners[usize::from(register) - 1] == self.thread {
            return Ok(());
        }
        let text = format!("register {} belongs to another thread", self.called(register));
        Err(Mistake { line: place, text })
    }

    fn called(&self, register: u8) -> String {
        format!("`{}`", self.c.scope.names.register(register))
    }
}

/// Does a name stand here that something is moved to?
fn moves_next(c: &Cursor) -> bool {
    let named = matches!(c.peek(), Token::Name(n) if !KEYWORDS.contains(&n.as_str()));
    let next = c.tokens.get(c.at + 1).map(|t| &t.0);
    named && [":=", ":=rel", "<-", "<-acq"].iter().any(|mark| next == Some(&Token::Mark(mark)))
}
