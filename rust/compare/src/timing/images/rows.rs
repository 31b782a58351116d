//! Lines by rules 21, 23, 24 and 30, each with as many names as there are rows for, all of which have to be tried. Both
//! tests are true in every row, and so are their parts, so that nothing can be skipped.

use super::repeated;
use reference::checker::rules::rows::MOST_ROWS;
use reference::formula::parse::Counts;
use reference::formula::{Assertion, Interval, Test, Value};
use reference::image::Header;
use reference::proof::{implies, included, Lemma};
use sets::generate::harness;

/// Lines of each rule with formulas of their own.
const VARIANTS: usize = 4;
const WORDS: usize = 8;
const REGISTERS: usize = 16;

pub fn image(range: u8, most: usize) -> Vec<u8> {
    let counts = Counts { threads: 1, words: WORDS as u8, registers: REGISTERS as u8, range };
    let header = Header::cleared(counts, vec![0; WORDS], vec![1; REGISTERS]);
    let mut plan = harness::plan(harness::program(header, vec![Vec::new()]));
    plan.spare = (0..VARIANTS).flat_map(|variant| lines(most_names(range), variant)).collect();
    repeated(&plan, &[21, 23, 24, 30], most)
}

/// So many names have at most 4,096 rows.
fn most_names(range: u8) -> usize {
    (1..).take_while(|&names| usize::from(range).pow(names) <= MOST_ROWS).count()
}

/// A line by each rule; rules 23 and 24 have as many words as registers, or one register more.
fn lines(names: usize, variant: usize) -> [Lemma; 4] {
    let register = |index: usize| Value::Register(((variant + index) % REGISTERS) as u8 + 1);
    let word = |index: usize| Value::Word(((variant + index) % WORDS) as u8 + 1);
    let any = |index: usize| if index < WORDS { word(index) } else { register(index - WORDS) };
    let (half, rest) = (names / 2, names - names / 2);
    let holds = |names: usize| laws((0..names).map(register).collect());
    let all = |names: usize, of: &dyn Fn(usize) -> Value| laws((0..names).map(of).collect());
    let turned = |test: &Test| Test::and(test.clone(), Test::truth());
    let (registers, few, words) = (holds(names), holds(rest), all(half, &word));
    let mixed = all(names, &any);
    let sees = |test: &Test| Assertion::sees(1, Interval::all(test.clone()));
    [
        implies(21, Assertion::holds(registers.clone()), Assertion::holds(turned(&registers)), &[]),
        implies(23, sees(&words), Assertion::holds(few.clone()), &[]),
        implies(24, Assertion::holds(few), sees(&words), &[]),
        included(30, Interval::all(mixed.clone()), Interval::all(turned(&mixed)), &[]),
    ]
}

/// a + b = b + a, and not both a < b and b < a, of values and their neighbours: true whatever these are. Each value is in
/// one of these at least, and there are four at least.
fn laws(values: Vec<Value>) -> Test {
    let apart = if values.len() > 4 { 2 } else { 1 };
    let law = |index: usize| {
        let at = |place: usize| &values[place % values.len()];
        let (a, b) = (at(apart * index), at(apart * index + 1));
        let sum = |a: &Value, b: &Value| Value::sum(a.clone(), b.clone());
        let less = |a: &Value, b: &Value| Test::less(a.clone(), b.clone());
        let commutes = Test::equal(sum(a, b), sum(b, a));
        Test::and(commutes, Test::negated(Test::and(less(a, b), less(b, a))))
    };
    let laws = (0..values.len().div_ceil(2).max(4)).map(law);
    laws.reduce(Test::and).expect("four laws")
}
