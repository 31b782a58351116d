//! A program as a litmus test that herd7 reads. herd7's C has no jumps: branches become `if` and `do .. while`.

use crate::c::access::Word;
use crate::c::lower::{Code, Local, Placed};
use crate::c::program::{Function, Whole};
use crate::c::types::MOST;
use crate::c::{values, At};
use crate::text::condition::{Condition, Quantifier};
use crate::text::lex::Place;
use crate::text::print::Names;
use reference::explore::Bounds;
use reference::formula::{Test, Value};
use reference::image::{Access, Instruction, Note, Program};

/// The test, with a condition or with all registers and words to be told.
pub fn written(
    program: &Program,
    names: &Names,
    title: &str,
    condition: Option<&Condition>,
    bounds: Bounds,
) -> Result<String, String> {
    if program.header.marks.contains(&0) {
        return Err("a register is open at the start, which no litmus test can say".into());
    }
    let no_wrap = values::fitting(&whole(program), bounds, 0);
    if no_wrap.is_ok_and(|fits| fits.range <= program.header.counts.range) {
        let writer = Writer { program, names: plain(names) };
        return writer.test(title, condition);
    }
    Err("a sum may wrap round the range, and in C it does not: there is no such test".into())
}

/// The program as if it came from C, for what is asked of its values.
fn whole(program: &Program) -> Whole {
    let at = At { file: 0, place: Place { line: 1, column: 1 } };
    let word =
        |start: &u8| Word { name: String::new(), start: *start, most: MOST, at, is_pointer: false };
    let local = |_: &u8| Local { name: None, most: MOST, at, is_zero: true };
    let placed = |one: &Instruction| Placed { instruction: one.clone(), at, order: None };
    let function = |(thread, code): (u8, &Vec<Instruction>)| {
        let locals =
            program.header.owners.iter().filter(|owner| **owner == thread).map(local).collect();
        let placed = code.iter().map(placed).collect();
        let code = Code { placed, locals, notes: vec![], end: at };
        Function { name: String::new(), code, at }
    };
    Whole {
        words: program.header.start.iter().map(word).collect(),
        functions: (1..).zip(&program.threads).map(function).collect(),
    }
}

/// Words of C that cannot be names there.
const WORDS_OF_C: [&str; 24] = [
    "int", "if", "else", "while", "do", "for", "goto", "return", "void", "char", "short", "long",
    "unsigned", "signed", "const", "static", "volatile", "register", "break", "continue", "switch",
    "case", "default", "sizeof",
];

/// Names that C can have; a register's without its thread's.
fn plain(names: &Names) -> Names {
    let of_c = |name: &String| {
        let name = name.rsplit(':').next().unwrap_or_default().replace('\'', "_");
        if WORDS_OF_C.contains(&name.as_str()) {
            name + "_"
        } else {
            name
        }
    };
    Names {
        words: names.words.iter().map(of_c).collect(),
        registers: names.registers.iter().map(of_c).collect(),
        ..names.clone()
    }
}

struct Writer<'a> {
    program: &'a Program,
    names: Names,
}

type Lines = Result<Vec<String>, String>;

impl Writer<'_> {
    fn test(&self, title: &str, condition: Option<&Condition>) -> Result<String, String> {
        let starts = self.names.words.iter().zip(&self.program.header.start);
        let start: Vec<String> = starts.map(|(name, value)| format!("[{name}]={value};")).collect();
        let mut text = format!("C {title}\n\n{{ {} }}\n", start.join(" "));
        for thread in self.program.thread_numbers() {
            text += &self.thread(thread)?;
        }
        let said = match condition {
            Some(condition) => self.condition(condition)?,
            None => format!("{}\nexists (true)", self.locations()),
        };
        Ok(format!("{text}\n{said}\n"))
    }

    /// The thread's registers.
    fn own(&self, thread: u8) -> Vec<&String> {
        let owned = self.names.registers.iter().zip(&self.program.header.owners);
        owned.filter(|(_, owner)| **owner == thread).map(|(name, _)| name).collect()
    }

    fn thread(&self, thread: u8) -> Result<String, String> {
        let code = &self.program.threads[usize::from(thread) - 1];
        let used: Vec<u8> = (1..=self.names.words.len() as u8)
            .filter(|word| code.iter().any(|one| one.word() == Some(*word)))
            .collect();
        let pointers: Vec<String> =
            used.iter().map(|word| format!("atomic_int* {}", self.names.word(*word))).collect();
        let mut text = format!("\nP{} ({}) {{\n", thread - 1, pointers.join(", "));
        for name in self.own(thread) {
            text += &format!("  int {name} = 0;\n");
        }
        for line in self.part(code, 0, code.len(), 1)? {
            text += &format!("{line}\n");
        }
        Ok(text + "}\n")
    }

    /// The instructions from one point up to another, so deep in blocks.
    fn part(&self, code: &[Instruction], from: usize, to: usize, depth: usize) -> Lines {
        let mut lines = Vec::new();
        let mut at = from;
        while at < to {
            let (more, next) = self.next(code, at, to, depth)?;
            lines.extend(more);
            at = next;
        }
        Ok(lines)
    }

    /// What begins at a point: a loop, a choice or an instruction; and the point behind it.
    fn next(
        &self,
        code: &[Instruction],
        at: usize,
        to: usize,
        depth: usize,
    ) -> Result<(Vec<String>, usize), String> {
        let pad = "  ".repeat(depth);
        let back = |point: &usize| matches!(&code[*point], Instruction::Branch { target, .. } if usize::from(*target) == at);
        if let Some(end) = (at..to).rev().find(back) {
            return self.repeated(code, at, end, depth);
        }
        let Instruction::Branch { test, target } = &code[at] else {
            let lines =
                self.act(&code[at]).into_iter().map(|line| format!("{pad}{line}")).collect();
            return Ok((lines, at + 1));
        };
        let target = usize::from(*target);
        if target <= at || target > to {
            return Err(no_jump());
        }
        let last = (target > at + 1).then(|| &code[target - 1]);
        let (then, end) = match last {
            Some(Instruction::Branch { test, target: end })
                if is_always(test) && usize::from(*end) > target =>
            {
                (target - 1, Some(usize::from(*end)))
            }
            _ => (target, None),
        };
        if end.is_some_and(|end| end > to) {
            return Err(no_jump());
        }
        let mut lines = vec![format!("{pad}if (!({})) {{", self.of_test(test))];
        lines.extend(self.part(code, at + 1, then, depth + 1)?);
        if let Some(end) = end {
            lines.push(format!("{pad}}} else {{"));
            lines.extend(self.part(code, target, end, depth + 1)?);
        }
        lines.push(format!("{pad}}}"));
        Ok((lines, end.unwrap_or(target)))
    }

    /// A loop from a point to the branch that leads back to it.
    fn repeated(
        &self,
        code: &[Instruction],
        at: usize,
        end: usize,
        depth: usize,
    ) -> Result<(Vec<String>, usize), String> {
        let Instruction::Branch { test, .. } = &code[end] else { return Err(no_jump()) };
        let pad = "  ".repeat(depth);
        let mut lines = vec![format!("{pad}do {{")];
        let mut inner = code.to_vec();
        // The branch itself is the loop's end; inside there may be another that leads to the same point.
        inner[end] = Instruction::Branch { test: test.clone(), target: u8::MAX };
        lines.extend(self.part(&inner, at, end, depth + 1)?);
        lines.push(format!("{pad}}} while ({});", self.of_test(test)));
        Ok((lines, end + 1))
    }

    /// An instruction; all its values are worked out before it.
    fn act(&self, instruction: &Instruction) -> Vec<String> {
        let notes = instruction.notes();
        let set = |note: &Note| {
            format!("{} = {};", self.names.register(note.register), self.of_value(&note.value))
        };
        match (instruction.access(), notes) {
            (None, [one]) => vec![set(one)],
            (Some(access), []) => vec![self.access(access)],
            _ => {
                let before = notes.iter().enumerate();
                let kept =
                    before.map(|(n, note)| format!("int new{n} = {};", self.of_value(&note.value)));
                let after = notes.iter().enumerate();
                let given = after
                    .map(|(n, note)| format!("{} = new{n};", self.names.register(note.register)));
                let access = instruction.access().map(|access| self.access(access));
                let inner: Vec<String> = kept.chain(access).chain(given).collect();
                vec![format!("{{ {} }}", inner.join(" "))]
            }
        }
    }

    fn access(&self, access: &Access) -> String {
        let word = self.names.word(access.word());
        let value = access.operand().map(|value| self.of_value(value)).unwrap_or_default();
        let result =
            access.result().map(|register| self.names.register(register)).unwrap_or_default();
        match access {
            Access::Load { acquiring, .. } => {
                let order = if *acquiring { "acquire" } else { "relaxed" };
                format!("{result} = atomic_load_explicit({word}, memory_order_{order});")
            }
            Access::Store { releasing, .. } => {
                let order = if *releasing { "release" } else { "relaxed" };
                format!("atomic_store_explicit({word}, {value}, memory_order_{order});")
            }
            Access::Swap { .. } => {
                format!("atomic_exchange_explicit({word}, {value}, memory_order_acq_rel);")
            }
            Access::Exchange { .. } => {
                format!(
                    "{result} = atomic_exchange_explicit({word}, {value}, memory_order_acq_rel);"
                )
            }
            Access::FetchAdd { .. } => {
                format!(
                    "{result} = atomic_fetch_add_explicit({word}, {value}, memory_order_acq_rel);"
                )
            }
        }
    }

    fn of_value(&self, value: &Value) -> String {
        match value {
            Value::Constant(number) => number.to_string(),
            Value::Register(number) => self.names.register(*number).into(),
            Value::Word(number) => self.names.word(*number).into(),
            Value::Sum(a, b) => format!("({} + {})", self.of_value(a), self.of_value(b)),
        }
    }

    fn of_test(&self, test: &Test) -> String {
        match test {
            Test::False => "0".into(),
            Test::Equal(a, b) => format!("{} == {}", self.of_value(a), self.of_value(b)),
            Test::Less(a, b) => format!("{} < {}", self.of_value(a), self.of_value(b)),
            Test::Not(inner) if **inner == Test::False => "1".into(),
            Test::Not(inner) => format!("!({})", self.of_test(inner)),
            Test::And(a, b) => format!("({}) && ({})", self.of_test(a), self.of_test(b)),
            Test::Or(a, b) => format!("({}) || ({})", self.of_test(a), self.of_test(b)),
            Test::Unsync(_) | Test::Covered(_) => "0".into(),
        }
    }

    /// A register or a word in a condition.
    fn location(&self, value: &Value) -> Option<String> {
        match value {
            Value::Register(number) => {
                let owner = self.program.header.owners[usize::from(*number) - 1];
                Some(format!("{}:{}", owner - 1, self.names.register(*number)))
            }
            Value::Word(number) => Some(format!("[{}]", self.names.word(*number))),
            Value::Constant(_) | Value::Sum(..) => None,
        }
    }

    fn locations(&self) -> String {
        let registers = (1..=self.names.registers.len() as u8).map(Value::Register);
        let words = (1..=self.names.words.len() as u8).map(Value::Word);
        let all = registers.chain(words).filter_map(|one| self.location(&one));
        let all: Vec<String> =
            all.map(|one| one.trim_matches(['[', ']']).to_string() + ";").collect();
        format!("locations [{}]", all.join(" "))
    }

    fn condition(&self, condition: &Condition) -> Result<String, String> {
        let word = match condition.quantifier {
            Quantifier::Exists => "exists",
            Quantifier::NotExists => "~exists",
            Quantifier::Forall => "forall",
        };
        Ok(format!("{word} ({})", self.proposition(&condition.test)?))
    }

    fn proposition(&self, test: &Test) -> Result<String, String> {
        let both = |a: &Test, mark: &str, b: &Test| -> Result<String, String> {
            Ok(format!("({} {mark} {})", self.proposition(a)?, self.proposition(b)?))
        };
        match test {
            Test::Equal(a, b) => match (self.location(a), &**b) {
                (Some(location), Value::Constant(number)) => Ok(format!("{location}={number}")),
                _ => Err(no_comparison()),
            },
            Test::Not(inner) if **inner == Test::False => Ok("true".into()),
            Test::Not(inner) => Ok(format!("~({})", self.proposition(inner)?)),
            Test::And(a, b) => both(a, "/\\", b),
            Test::Or(a, b) => both(a, "\\/", b),
            Test::False => Ok("false".into()),
            Test::Less(..) | Test::Unsync(_) | Test::Covered(_) => Err(no_comparison()),
        }
    }
}

fn is_always(test: &Test) -> bool {
    *test == Test::truth()
}

fn no_jump() -> String {
    "a jump of this program is no `if` and no loop, and herd7's C has no other".into()
}

fn no_comparison() -> String {
    "--outcome: a litmus test compares a register or a word with a number, by `=`".into()
}
