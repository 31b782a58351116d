//! A C function to the instructions of a thread.

use super::access::{self, Call, Operation, Order, Word};
use super::tree::{Act, Declaration, Expression, For, Function, Node, Statement};
use super::types::MOST;
use super::{refuse, At, Read};
use crate::terms::*;
use reference::formula::atoms::Atoms;
use reference::formula::Test;
use reference::image::{Access, Instruction};
use std::collections::BTreeMap;

/// A local variable or a value in between: a register.
#[derive(Debug, Clone, PartialEq, Eq)]
pub struct Local {
    /// None of a value in between.
    pub name: Option<String>,
    pub most: u8,
    pub at: At,
    /// Does it begin with 0 because its declaration says so?
    pub is_zero: bool,
}

/// An instruction with what is known of its place in C.
#[derive(Debug, Clone, PartialEq, Eq)]
pub struct Placed {
    pub instruction: Instruction,
    pub at: At,
    /// The order that an access asks for, and whether it is one of the kernel's.
    pub order: Option<(Order, bool)>,
}

/// An assertion behind `//@`.
#[derive(Debug, Clone, PartialEq, Eq)]
pub struct Noted {
    pub point: usize,
    pub text: String,
    pub at: At,
}

/// The instructions of a thread, its registers and its assertions.
#[derive(Debug, Clone)]
pub struct Code {
    pub placed: Vec<Placed>,
    pub locals: Vec<Local>,
    pub notes: Vec<Noted>,
    /// Where its last point stands.
    pub end: At,
}

/// A place in the code that is named before it is known.
type Label = usize;

/// Where `break` and `continue` go.
struct Loop {
    out: Label,
    again: Label,
}

struct Lowering<'a> {
    words: &'a [Word],
    /// The registers of the threads before.
    before: usize,
    placed: Vec<Placed>,
    /// The label that each branch goes to, by its point.
    jumps: BTreeMap<usize, Label>,
    /// The point of each label.
    labels: Vec<Option<usize>>,
    named: BTreeMap<String, (Label, At)>,
    /// The names in force, the innermost block last.
    scopes: Vec<BTreeMap<String, u8>>,
    /// All parameters; what those that are no words hold is not known.
    parameters: Vec<String>,
    locals: Vec<Local>,
    loops: Vec<Loop>,
    notes: Vec<Noted>,
    end: Label,
    /// May what is read here run more than once?
    repeats: bool,
}

/// The code of a function; `before` registers are those of other threads.
pub fn lower(words: &[Word], before: usize, function: &Function) -> Read<Code> {
    let mut lowering = Lowering {
        words,
        before,
        placed: Vec::new(),
        jumps: BTreeMap::new(),
        labels: vec![None],
        named: BTreeMap::new(),
        scopes: Vec::new(),
        parameters: function.parameters.iter().map(|p| p.name.clone()).collect(),
        locals: Vec::new(),
        loops: Vec::new(),
        notes: Vec::new(),
        end: 0,
        repeats: false,
    };
    lowering.block(&function.body)?;
    lowering.bind(0);
    lowering.finish(function.end)
}

impl Lowering<'_> {
    fn finish(mut self, end: At) -> Read<Code> {
        for (name, (label, at)) in &self.named {
            if self.labels[*label].is_none() {
                return refuse(*at, format!("no label `{name}` stands in this function"));
            }
        }
        for (point, label) in &self.jumps {
            let Instruction::Branch { target, .. } = &mut self.placed[*point].instruction else {
                continue;
            };
            let to = self.labels[*label].unwrap_or_default();
            *target = u8::try_from(to).unwrap_or(u8::MAX);
        }
        Ok(Code { placed: self.placed, locals: self.locals, notes: self.notes, end })
    }

    fn label(&mut self) -> Label {
        self.labels.push(None);
        self.labels.len() - 1
    }

    /// The label stands here. A jump that only leads here is taken back.
    fn bind(&mut self, label: Label) {
        let here = self.placed.len();
        let last = here.checked_sub(1).filter(|last| {
            let is_always = matches!(&self.placed[*last].instruction,
                Instruction::Branch { test, .. } if *test == truth());
            is_always && self.jumps.get(last) == Some(&label)
        });
        if let Some(last) = last {
            self.placed.pop();
            self.jumps.remove(&last);
            let back = |point: &mut usize| *point = (*point).min(last);
            self.labels.iter_mut().flatten().for_each(back);
            self.notes.iter_mut().map(|note| &mut note.point).for_each(back);
        }
        self.labels[label] = Some(self.placed.len());
    }

    fn push(&mut self, instruction: Instruction, at: At, order: Option<(Order, bool)>) {
        self.placed.push(Placed { instruction, at, order });
    }

    fn branch(&mut self, test: T, to: Label, at: At) {
        self.jumps.insert(self.placed.len(), to);
        self.push(Instruction::Branch { test, target: 0 }, at, None);
    }

    fn jump(&mut self, to: Label, at: At) {
        self.branch(truth(), to, at);
    }

    /// A new register.
    fn local(&mut self, name: Option<&str>, most: u8, at: At) -> Read<u8> {
        self.locals.push(Local { name: name.map(String::from), most, at, is_zero: false });
        let number = self.before + self.locals.len();
        match u8::try_from(number) {
            Ok(number) => Ok(number),
            Err(_) => refuse(at, "there are too many variables"),
        }
    }

    fn block(&mut self, all: &[Statement]) -> Read<()> {
        self.scopes.push(BTreeMap::new());
        let done = all.iter().try_for_each(|one| self.statement(one));
        self.scopes.pop();
        done
    }

    fn statement(&mut self, one: &Statement) -> Read<()> {
        let at = one.at;
        match &one.is {
            Act::Declare(all) => all.iter().try_for_each(|one| self.declare(one)),
            Act::Do(what) => self.effect(what),
            Act::If(test, then, other) => self.choice(test, then, other.as_deref(), at),
            Act::While(test, body) => self.while_loop(test, body, at),
            Act::DoWhile(body, test) => self.do_while(body, test),
            Act::For(parts) => self.for_loop(parts, at),
            Act::Goto(name) => {
                let label = self.named(name, at);
                self.jump(label, at);
                Ok(())
            }
            Act::Label(name) => self.labelled(name, at),
            Act::Return(value) => self.leave(value.as_ref(), at),
            Act::Break | Act::Continue => self.leave_loop(one.is == Act::Break, at),
            Act::Block(all) => self.block(all),
            Act::Note(text) => self.note(text, at),
        }
    }

    fn note(&mut self, text: &str, at: At) -> Read<()> {
        let point = self.placed.len();
        if self.notes.iter().any(|note| note.point == point) {
            return refuse(at, "this point has an assertion already");
        }
        self.notes.push(Noted { point, text: text.into(), at });
        Ok(())
    }

    /// The label of a name, which may come later.
    fn named(&mut self, name: &str, at: At) -> Label {
        if let Some((label, _)) = self.named.get(name) {
            return *label;
        }
        let label = self.label();
        self.named.insert(name.into(), (label, at));
        label
    }

    fn labelled(&mut self, name: &str, at: At) -> Read<()> {
        let label = self.named(name, at);
        if self.labels[label].is_some() {
            return refuse(at, format!("the label `{name}` is given twice"));
        }
        self.repeats = true;
        self.bind(label);
        Ok(())
    }

    /// What a thread returns says nothing to others, if it is worked out from no access.
    fn leave(&mut self, value: Option<&Expression>, at: At) -> Read<()> {
        match value.filter(|value| value.has_call()) {
            Some(value) => {
                refuse(value.at, "an access in what is returned is no part of the subset")
            }
            None => {
                self.jump(self.end, at);
                Ok(())
            }
        }
    }

    fn leave_loop(&mut self, is_break: bool, at: At) -> Read<()> {
        let Some(inner) = self.loops.last() else {
            return refuse(at, "there is no loop around this");
        };
        let to = if is_break { inner.out } else { inner.again };
        self.jump(to, at);
        Ok(())
    }

    fn declare(&mut self, one: &Declaration) -> Read<()> {
        if !one.of.is_register() || one.of.is_extern || one.of.is_static {
            return refuse(one.at, format!("`{}` is no number of this function's own", one.name));
        }
        if access::is_reserved(&one.name) {
            return refuse(one.at, format!("`{}` is the name of an access or an order", one.name));
        }
        let scope = self.scopes.last().is_some_and(|scope| scope.contains_key(&one.name));
        if scope {
            return refuse(one.at, format!("`{}` is declared twice", one.name));
        }
        let register = self.local(Some(&one.name), one.of.most.unwrap_or(MOST), one.at)?;
        if let Some(value) = &one.value {
            let is_zero = value.uncast().is == Node::Number(0) && !self.repeats;
            match is_zero {
                // Registers begin with 0.
                true => self.locals[usize::from(register) - 1 - self.before].is_zero = true,
                false => self.assign(register, value, one.at)?,
            }
        }
        if let Some(scope) = self.scopes.last_mut() {
            scope.insert(one.name.clone(), register);
        }
        Ok(())
    }

    /// The register of a variable.
    fn register(&self, name: &str) -> Option<u8> {
        self.scopes.iter().rev().find_map(|scope| scope.get(name)).copied()
    }

    /// The access that a call is; a word that its thread has only by a pointer has to be one of its parameters.
    fn call<'e>(&self, name: &str, parts: &'e [Expression], at: At) -> Read<Call<'e>> {
        let call = access::call(self.words, name, parts, at)?;
        let word = &self.words[usize::from(call.word) - 1];
        let (name, at) = (&word.name, parts[0].at);
        match (word.is_pointer, self.parameters.contains(name)) {
            _ if self.register(name).is_some() => {
                refuse(at, format!("`{name}` is a variable of this function here, and no word"))
            }
            (true, false) => refuse(at, format!("`{name}` is no parameter of this thread")),
            (false, true) => {
                refuse(at, format!("`{name}` is a parameter of this function, and no word"))
            }
            _ => Ok(call),
        }
    }

    /// An expression as a statement.
    fn effect(&mut self, what: &Expression) -> Read<()> {
        let at = what.at;
        match &what.is {
            Node::Assign(mark, left, right) => self.assignment(mark, left, right, at),
            Node::Prefix(mark @ ("++" | "--"), part)
            | Node::Postfix(mark @ ("++" | "--"), part) => {
                let one = Expression::new(Node::Number(1), at);
                self.assignment(if *mark == "++" { "+=" } else { "-=" }, part, &one, at)
            }
            Node::Call(name, parts) => {
                let call = self.call(name, parts, at)?;
                self.dropped(&call)
            }
            Node::Cast(to, part) if to.most.is_none() && to.pointers == 0 => match &part.is {
                Node::Name(_) | Node::Number(_) => Ok(()),
                _ => self.effect(part),
            },
            _ => refuse(at, "this has no effect that the machine has"),
        }
    }

    fn assignment(
        &mut self,
        mark: &str,
        left: &Expression,
        right: &Expression,
        at: At,
    ) -> Read<()> {
        let Node::Name(name) = &left.is else { return refuse(left.at, self.plain_access(left)) };
        let Some(register) = self.register(name) else {
            return refuse(left.at, self.plain_access(left));
        };
        match mark {
            "=" => self.assign(register, right, at),
            "+=" => {
                let value = self.value(right)?;
                let sum = sum(&crate::terms::register(register), &value);
                self.push(Instruction::assign(register, sum), at, None);
                Ok(())
            }
            _ => refuse(at, format!("`{mark}` is no operation of the machine: values are added, and compared in tests")),
        }
    }

    /// Why something that is no variable of the function cannot be read or written as it stands.
    fn plain_access(&self, what: &Expression) -> String {
        let name = match &what.is {
            Node::Prefix("*", inner) => &inner.is,
            is => is,
        };
        let word = |name: &String| self.words.iter().find(|word| word.name == *name);
        match name {
            Node::Name(name) if word(name).is_some() => format!(
                "a plain access to `{name}` is seq_cst if it is atomic, and else a non-atomic one; neither has a counterpart"
            ),
            Node::Name(name) => format!("`{name}` is no variable of this function and no atomic word"),
            _ => "only variables of this function are read and written as they stand".into(),
        }
    }

    /// Puts a value, or what an access reads, into a register.
    fn assign(&mut self, register: u8, value: &Expression, at: At) -> Read<()> {
        if let Node::Call(name, parts) = &value.uncast().is {
            let call = self.call(name, parts, value.uncast().at)?;
            return self.fetch(&call, register);
        }
        let value = self.value(value)?;
        self.push(Instruction::assign(register, value), at, None);
        Ok(())
    }

    /// An access whose result goes into a register.
    fn fetch(&mut self, call: &Call, register: u8) -> Read<()> {
        let value = call.value.map(|value| self.value(value)).transpose()?;
        let (word, at) = (call.word, call.at);
        // The register that gets the old value may not stand in the new one.
        if value.as_ref().is_some_and(|value| value.has_register(register)) {
            let between = self.local(None, MOST, at)?;
            self.access(call, Some(between), value)?;
            self.push(Instruction::assign(register, crate::terms::register(between)), at, None);
            return Ok(());
        }
        match call.operation {
            Operation::Store => refuse(
                at,
                format!("a store gives no value: `{}`", self.words[usize::from(word) - 1].name),
            ),
            _ => self.access(call, Some(register), value),
        }
    }

    /// An access whose result is dropped.
    fn dropped(&mut self, call: &Call) -> Read<()> {
        let value = call.value.map(|value| self.value(value)).transpose()?;
        let between = match call.operation {
            Operation::Store | Operation::Exchange => None,
            Operation::Load | Operation::FetchAdd => Some(self.local(None, MOST, call.at)?),
        };
        self.access(call, between, value)
    }

    fn access(&mut self, call: &Call, register: Option<u8>, value: Option<V>) -> Read<()> {
        let word = call.word;
        let access = match (call.operation, register, value) {
            (Operation::Load, Some(register), None) => {
                Access::Load { register, word, acquiring: call.order == Order::Acquire }
            }
            (Operation::Store, None, Some(value)) => {
                Access::Store { word, value, releasing: call.order == Order::Release }
            }
            (Operation::Exchange, None, Some(value)) => Access::Swap { word, value },
            (Operation::Exchange, Some(register), Some(value)) => {
                Access::Exchange { register, word, value }
            }
            (Operation::FetchAdd, Some(register), Some(value)) => {
                Access::FetchAdd { register, word, value }
            }
            _ => return refuse(call.at, "a store gives no value"),
        };
        self.push(access.into(), call.at, Some((call.order, call.is_kernel)));
        Ok(())
    }

    /// A value; an access in it is done before.
    fn value(&mut self, what: &Expression) -> Read<V> {
        let at = what.at;
        match &what.is {
            Node::Number(number) => match u8::try_from(*number).ok().filter(|number| *number <= MOST) {
                Some(number) => Ok(constant(number)),
                None => refuse(at, format!("{number} is out of reach: values are 0 to {MOST} at most")),
            },
            Node::Name(name) => self.variable(name, what),
            Node::Cast(to, part) if to.is_plain_number() => self.value(part),
            Node::Cast(..) => refuse(at, "this cast has no counterpart"),
            Node::Infix("+", a, b) => {
                if a.has_call() && b.has_call() {
                    return refuse(at, "C does not say which of these two accesses comes first");
                }
                let first = self.value(a)?;
                Ok(sum(&first, &self.value(b)?))
            }
            Node::Infix("==" | "!=" | "<" | ">" | "<=" | ">=" | "&&" | "||", ..) | Node::Prefix("!", _) => {
                refuse(at, "a test is no value here; `if` sets a variable by it")
            }
            Node::Infix(mark, ..) | Node::Prefix(mark @ ("-" | "~" | "++" | "--" | "+"), _) | Node::Postfix(mark, _) => {
                refuse(at, format!("`{mark}` is no operation of the machine: values are added, and compared in tests"))
            }
            Node::Call(name, parts) => {
                let call = self.call(name, parts, at)?;
                let between = self.local(None, MOST, at)?;
                self.fetch(&call, between)?;
                Ok(register(between))
            }
            Node::Assign(..) => refuse(at, "an assignment inside of an expression is no part of the subset"),
            Node::Other(what) => refuse(at, format!("{what} is no value of the machine")),
            Node::Prefix(..) => refuse(at, self.plain_access(what)),
        }
    }

    fn variable(&self, name: &str, what: &Expression) -> Read<V> {
        match (self.register(name), name) {
            (Some(number), _) => Ok(register(number)),
            (None, "true") => Ok(constant(1)),
            (None, "false") => Ok(constant(0)),
            _ if self.parameters.iter().any(|p| p == name) => {
                refuse(what.at, format!("what the parameter `{name}` holds is not known here"))
            }
            _ => refuse(what.at, self.plain_access(what)),
        }
    }

    /// A test without accesses.
    fn test(&mut self, what: &Expression) -> Read<T> {
        let (is, at) = (&what.is, what.at);
        match is {
            Node::Infix("&&", a, b) => Ok(and(&self.test(a)?, &self.test(b)?)),
            Node::Infix("||", a, b) => Ok(or(&self.test(a)?, &self.test(b)?)),
            Node::Prefix("!", a) => Ok(not(&self.test(a)?)),
            Node::Infix(mark @ ("==" | "!=" | "<" | ">" | "<=" | ">="), a, b) => {
                if a.has_call() && b.has_call() {
                    return refuse(at, "C does not say which of these two accesses comes first");
                }
                let (a, b) = (self.value(a)?, self.value(b)?);
                Ok(match *mark {
                    "==" => equal(&a, &b),
                    "!=" => not(&equal(&a, &b)),
                    "<" => less(&a, &b),
                    ">" => less(&b, &a),
                    "<=" => not(&less(&b, &a)),
                    _ => not(&less(&a, &b)),
                })
            }
            _ => Ok(not(&equal(&self.value(what)?, &constant(0)))),
        }
    }

    /// Jumps if the test is so, or if it is not so; accesses in it are done in C's order, as far as it goes.
    fn jump_if(&mut self, what: &Expression, sense: bool, to: Label) -> Read<()> {
        match &what.is {
            Node::Number(number) => {
                if (*number != 0) == sense {
                    self.jump(to, what.at);
                }
                Ok(())
            }
            Node::Prefix("!", part) => self.jump_if(part, !sense, to),
            Node::Infix(mark @ ("&&" | "||"), a, b) if what.has_call() => {
                let decides = *mark == "||";
                if decides == sense {
                    self.jump_if(a, sense, to)?;
                    return self.jump_if(b, sense, to);
                }
                let past = self.label();
                self.jump_if(a, !sense, past)?;
                self.jump_if(b, sense, to)?;
                self.bind(past);
                Ok(())
            }
            _ => {
                let test = self.test(what)?;
                self.branch(if sense { test } else { negated(&test) }, to, what.at);
                Ok(())
            }
        }
    }

    fn choice(
        &mut self,
        test: &Expression,
        then: &Statement,
        other: Option<&Statement>,
        at: At,
    ) -> Read<()> {
        let (past, end) = (self.label(), self.label());
        self.jump_if(test, false, past)?;
        self.statement(then)?;
        if let Some(other) = other {
            self.jump(end, at);
            self.bind_behind_jump(past);
            self.statement(other)?;
        } else {
            self.bind(past);
        }
        self.bind(end);
        Ok(())
    }

    /// The label stands here, behind a jump that leads elsewhere.
    fn bind_behind_jump(&mut self, label: Label) {
        self.labels[label] = Some(self.placed.len());
    }

    /// The body of a loop.
    fn body(&mut self, body: &Statement, out: Label, again: Label) -> Read<()> {
        self.loops.push(Loop { out, again });
        let done = self.statement(body);
        self.loops.pop();
        done
    }

    fn while_loop(&mut self, test: &Expression, body: &Statement, at: At) -> Read<()> {
        let (top, out) = (self.label(), self.label());
        self.repeats = true;
        self.bind(top);
        let is_empty = matches!(&body.is, Act::Block(all) if all.is_empty());
        if is_empty {
            // Nothing lies between the test and the next one.
            self.jump_if(test, true, top)?;
        } else {
            self.jump_if(test, false, out)?;
            self.body(body, out, top)?;
            self.jump(top, at);
        }
        self.bind(out);
        Ok(())
    }

    fn do_while(&mut self, body: &Statement, test: &Expression) -> Read<()> {
        let (top, out, again) = (self.label(), self.label(), self.label());
        self.repeats = true;
        self.bind(top);
        self.body(body, out, again)?;
        self.bind(again);
        self.jump_if(test, true, top)?;
        self.bind(out);
        Ok(())
    }

    fn for_loop(&mut self, parts: &For, at: At) -> Read<()> {
        let For { first, test, next, body } = parts;
        self.scopes.push(BTreeMap::new());
        first.iter().try_for_each(|first| self.statement(first))?;
        let (top, out, again) = (self.label(), self.label(), self.label());
        self.repeats = true;
        self.bind(top);
        test.iter().try_for_each(|test| self.jump_if(test, false, out))?;
        self.body(body, out, again)?;
        self.bind(again);
        next.iter().try_for_each(|next| self.effect(next))?;
        self.jump(top, at);
        self.bind(out);
        self.scopes.pop();
        Ok(())
    }
}

/// The negation of a test; of a negated one what is negated.
fn negated(test: &T) -> T {
    match &**test {
        Test::Not(inner) if **inner != Test::False => inner.clone(),
        _ => not(test),
    }
}
