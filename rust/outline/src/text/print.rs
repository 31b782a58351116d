//! Formulas as text, in the syntax that `parse` reads back to the same formula.

use crate::text::source::Labels;
use reference::formula::{Assertion, Formula, Interval, Test, Value};
use reference::image::{Access, Instruction, Meeting, Program};

/// Names of words, registers and threads; number 1 is first.
#[derive(Debug, Clone, Default)]
pub struct Names {
    pub words: Vec<String>,
    pub registers: Vec<String>,
    pub threads: Vec<String>,
    /// What `let` names, for messages: a formula that has a name is told by it.
    pub shorts: Vec<(Formula, String)>,
    /// The labels of points, by thread; an image has none.
    pub labels: Vec<Labels>,
}

/// A text and how tightly it binds.
struct Bound(String, u8);

const ATOM: u8 = 9;

impl Bound {
    fn atom(text: impl Into<String>) -> Bound {
        Bound(text.into(), ATOM)
    }

    /// Infix, nested to the right without parentheses.
    fn infix(a: Bound, mark: &str, b: Bound, level: u8) -> Bound {
        Bound(format!("{}{mark}{}", a.at(level + 1), b.at(level)), level)
    }

    /// The text, in parentheses if it binds less tightly than `level`.
    fn at(self, level: u8) -> String {
        if self.1 < level {
            format!("({})", self.0)
        } else {
            self.0
        }
    }
}

impl Names {
    /// The names that `show` gives, since an image has none: w1, r1, t1.
    pub fn of(program: &Program) -> Names {
        let list = |c: char, n: usize| (1..=n).map(|i| format!("{c}{i}")).collect();
        Names {
            words: list('w', program.header.start.len()),
            registers: list('r', program.header.owners.len()),
            threads: list('t', program.threads.len()),
            ..Names::default()
        }
    }

    pub fn word(&self, number: u8) -> &str {
        &self.words[usize::from(number) - 1]
    }
    pub fn register(&self, number: u8) -> &str {
        &self.registers[usize::from(number) - 1]
    }
    pub fn thread(&self, number: u8) -> &str {
        &self.threads[usize::from(number) - 1]
    }
    /// The label of a thread's point, if it has one.
    pub fn label(&self, thread: u8, point: u8) -> Option<&str> {
        self.labels.get(usize::from(thread) - 1)?.get(usize::from(point))?.as_deref()
    }
    /// A thread's point by its label, or else by its number.
    pub fn point(&self, thread: u8, point: u8) -> String {
        self.label(thread, point).map_or_else(|| format!("point {point}"), String::from)
    }
    /// A thread at one of its points: `ann at inside`, `ann at point 5`.
    pub fn at(&self, thread: u8, point: u8) -> String {
        format!("{} at {}", self.thread(thread), self.point(thread, point))
    }
    /// What a claim says: `ann at inside and bob at inside`.
    pub fn both(&self, meeting: &Meeting) -> String {
        let Meeting { thread, point, other_thread, other_point } = *meeting;
        format!("{} and {}", self.at(thread, point), self.at(other_thread, other_point))
    }

    pub fn value(&self, tree: &Value) -> String {
        self.bind_value(tree).0
    }
    pub fn test(&self, tree: &Test) -> String {
        self.bind_test(tree).0
    }
    pub fn assertion(&self, tree: &Assertion) -> String {
        self.bind_assertion(tree).0
    }
    /// The text of a formula of any sort.
    pub fn formula(&self, formula: &Formula) -> String {
        match formula {
            Formula::Value(tree) => self.value(tree),
            Formula::Test(tree) => self.test(tree),
            Formula::Interval(tree) => self.bind_interval(tree).0,
            Formula::Assertion(tree) => self.assertion(tree),
        }
    }

    /// One instruction of a thread as text; a branch goes to a label, if its target has one.
    pub fn instruction(&self, thread: u8, instruction: &Instruction) -> String {
        self.instruction_with(thread, instruction, &[])
    }

    /// One instruction with a text behind each of its formulas, as far as there are texts.
    pub fn instruction_with(
        &self,
        thread: u8,
        instruction: &Instruction,
        behind: &[String],
    ) -> String {
        let mut behind = behind.iter();
        let mut marked = |text: String| text + behind.next().map_or("", |mark| mark.as_str());
        let (access, notes) = match instruction {
            Instruction::Branch { test, target } => {
                let label = self.label(thread, *target);
                let to = label.map_or_else(|| target.to_string(), String::from);
                return marked(format!("if {} goto {to}", self.test(test)));
            }
            Instruction::Act { access, notes } => (access, notes),
        };
        let mut parts = Vec::new();
        if let Some(access) = access {
            let text = self.access(access);
            parts.push(if access.operand().is_some() { marked(text) } else { text });
        }
        if !notes.is_empty() {
            let registers: Vec<&str> = notes.iter().map(|n| self.register(n.register)).collect();
            let values: Vec<String> = notes.iter().map(|n| marked(self.value(&n.value))).collect();
            parts.push(format!("{} := {}", registers.join(", "), values.join(", ")));
        }
        parts.join(" | ")
    }

    /// An access as text; its value stands last.
    fn access(&self, access: &Access) -> String {
        let name = self.word(access.word());
        match access {
            Access::Load { register, acquiring, .. } => {
                let mark = if *acquiring { "<-acq" } else { "<-" };
                format!("{} {mark} {name}", self.register(*register))
            }
            Access::Store { value, releasing, .. } => {
                let mark = if *releasing { ":=rel" } else { ":=" };
                format!("{name} {mark} {}", self.value(value))
            }
            Access::Swap { value, .. } => format!("swap {name} := {}", self.value(value)),
            Access::Exchange { register, value, .. } => {
                format!("{} <- exchange {name} := {}", self.register(*register), self.value(value))
            }
            Access::FetchAdd { register, value, .. } => {
                format!("{} <- fetch-add {name} + {}", self.register(*register), self.value(value))
            }
        }
    }

    /// The name that `let` gives to a formula.
    fn short(&self, is: impl Fn(&Formula) -> bool) -> Option<Bound> {
        let named = self.shorts.iter().find(|(formula, _)| is(formula));
        named.map(|(_, name)| Bound::atom(name))
    }

    fn bind_value(&self, tree: &Value) -> Bound {
        match tree {
            Value::Constant(number) => Bound::atom(number.to_string()),
            Value::Register(number) => Bound::atom(self.register(*number)),
            Value::Word(number) => Bound::atom(self.word(*number)),
            // Sums alone nest to the left.
            Value::Sum(a, b) => {
                Bound(format!("{} + {}", self.bind_value(a).at(5), self.bind_value(b).at(6)), 5)
            }
        }
    }

    fn bind_test(&self, tree: &Test) -> Bound {
        if let Some(name) = self.short(|f| matches!(f, Formula::Test(e) if **e == *tree)) {
            return name;
        }
        match tree {
            Test::False => Bound::atom("false"),
            Test::Equal(a, b) => self.comparison(a, " = ", b),
            Test::Less(a, b) => self.comparison(a, " < ", b),
            Test::Not(e) => self.negation(e),
            Test::And(a, b) => Bound::infix(self.bind_test(a), " and ", self.bind_test(b), 2),
            Test::Or(a, b) => Bound::infix(self.bind_test(a), " or ", self.bind_test(b), 1),
            Test::Unsync(word) => Bound::atom(format!("unsync {}", self.word(*word))),
            Test::Covered(word) => Bound::atom(format!("cov {}", self.word(*word))),
        }
    }

    fn comparison(&self, a: &Value, mark: &str, b: &Value) -> Bound {
        Bound(format!("{}{mark}{}", self.bind_value(a).at(5), self.bind_value(b).at(5)), 4)
    }

    fn negation(&self, e: &Test) -> Bound {
        match e {
            Test::False => Bound::atom("true"),
            Test::Equal(a, b) => self.comparison(a, " != ", b),
            Test::Less(a, b) => self.comparison(a, " >= ", b),
            _ => Bound::atom(format!("not {}", self.bind_test(e).at(ATOM))),
        }
    }

    fn bind_interval(&self, tree: &Interval) -> Bound {
        if let Some(name) = self.short(|f| matches!(f, Formula::Interval(i) if **i == *tree)) {
            return name;
        }
        let part = |tree: &Interval| self.bind_interval(tree);
        match tree {
            Interval::All(e) => Bound::atom(format!("[{}]", self.test(e))),
            Interval::One(word) => Bound::atom(format!("one {}", self.word(*word))),
            Interval::Chop(a, b) => Bound::infix(part(a), " ; ", part(b), 0),
            Interval::Both(a, b) => {
                let short = self.one_equal(a, b);
                short.unwrap_or_else(|| Bound::infix(part(a), " & ", part(b), 2))
            }
            Interval::Either(a, b) => Bound::infix(part(a), " | ", part(b), 1),
        }
    }

    /// `one x = v` is short for `one x & [x = v]`.
    fn one_equal(&self, a: &Interval, b: &Interval) -> Option<Bound> {
        let Interval::One(word) = a else { return None };
        let Test::Equal(named, value) = &**b.as_all()? else { return None };
        let value = self.bind_value(value).at(5);
        let short = || Bound::atom(format!("one {} = {value}", self.word(*word)));
        (**named == Value::Word(*word)).then(short)
    }

    fn bind_assertion(&self, tree: &Assertion) -> Bound {
        if let Some(name) = self.short(|f| matches!(f, Formula::Assertion(a) if **a == *tree)) {
            return name;
        }
        let part = |tree: &Assertion| self.bind_assertion(tree);
        match tree {
            Assertion::Sees(thread, i) => {
                Bound(format!("{} sees {}", self.thread(*thread), self.bind_interval(i).0), 3)
            }
            Assertion::Both(a, b) => Bound::infix(part(a), " and ", part(b), 2),
            Assertion::Either(a, b) => Bound::infix(part(a), " or ", part(b), 1),
            Assertion::Start => Bound::atom("start"),
            Assertion::Holds(e) => self.holds(e),
        }
    }

    /// Comparisons, true and false stand for themselves; other tests after `holds`.
    fn holds(&self, e: &Test) -> Bound {
        let bare = match e {
            Test::False | Test::Equal(..) | Test::Less(..) => true,
            Test::Not(n) => matches!(**n, Test::False | Test::Equal(..) | Test::Less(..)),
            _ => false,
        };
        if bare {
            Bound(self.test(e), 4)
        } else {
            Bound::atom(format!("holds ({})", self.test(e)))
        }
    }
}
