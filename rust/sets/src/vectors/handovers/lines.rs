//! Lines that a table names: those that serve, and those that nearly do.

use super::{case, new_written, HandoverCase};
use crate::examples::update::{is, new_code, old_code, truth, up_to, TABLE};
use reference::formula::encode::Encode;
use reference::formula::{Assertion, Interval, Test, Value};
use reference::image::written::Written;
use reference::proof::{implies, included, seen, triple, Lemma};
use std::rc::Rc;

/// The entry of old point 2 of thread 1, which says that register 1 is 5, and of thread 2's last point.
const ABOUT_FIVE: usize = 7;
const LAST: usize = 13;

pub fn cases() -> Vec<HandoverCase> {
    [about_five(), swapped(), by_other_rules(), other_bytes()].concat()
}

/// The new image with further lines behind those that hand over; the table names the last of them in this entry.
fn naming(label: &str, entry: usize, lines: &[Lemma]) -> HandoverCase {
    let mut plan = new_code();
    plan.spare.extend(lines.iter().cloned());
    let image = plan.written();
    let last = lines.last().expect("a line");
    let number = (0..image.lines.len()).find(|&at| is_line(&image, at, last));
    let mut table = TABLE;
    table[entry] = number.expect("the line is there") as u8 + 1;
    case(label, old_code().bytes(), image.bytes(), &table)
}

/// Whether the line at an index says what the proof's last line does, by the same rule.
fn is_line(image: &Written, at: usize, proof: &Lemma) -> bool {
    let line = &image.lines[at];
    let (left, right) = proof.statement.sides();
    let side = |number: u16| &image.formulas[usize::from(number) - 1];
    (line.rule, line.thread, line.point)
        == (proof.rule, proof.statement.place().0, proof.statement.place().1)
        && line.premises.len() == proof.premises.len()
        && *side(line.left) == left.encode()
        && *side(line.right) == right.encode()
}

fn about_five() -> Vec<HandoverCase> {
    let five = Rc::new(Assertion::both(is(5), is(5)));
    let all = Interval::all(Test::truth());
    let not_less = Test::negated(Test::less(Value::Register(1), Value::Constant(5)));
    let weaker = implies(21, is(5), Assertion::holds(not_less), &[]);
    let wrong = implies(21, up_to(5), is(5), &[]);
    let good = implies(21, is(5), up_to(5), &[]);
    let one = |label: &str, line: Lemma| naming(label, ABOUT_FIVE, &[line]);
    vec![
        one("34: sides exchanged", wrong.clone()),
        one("34: sides exchanged, on a premise", implies(20, up_to(5), is(5), &[&wrong])),
        one("34: no truth table shows it", implies(20, is(5), up_to(5), &[])),
        one("34: on an unjustified premise", implies(20, is(5), up_to(5), &[&good, &wrong])),
        one("34: by rule 23", implies(23, is(5), up_to(5), &[])),
        one("34: by rule 27", implies(27, is(5), up_to(5), &[])),
        one("34: a triple", triple(2, (1, 0), is(5), up_to(5), &[])),
        one("34: a triple of the other thread", triple(1, (2, 0), is(5), up_to(5), &[])),
        one("34: a justified triple", triple(1, (2, 1), up_to(5), up_to(5), &[])),
        one("34: an inclusion", included(46, all.clone(), all, &[])),
        one("34: a stronger left side", implies(20, five, up_to(5), &[&good])),
        one("34: another right side", weaker),
        one("34: to the assertion of another new point", implies(21, is(7), is(7), &[])),
        one("34: from the assertion of another old point", implies(21, is(2), up_to(5), &[])),
        one("accepted: on a premise that says the same", implies(20, is(5), up_to(5), &[&good])),
        one(
            "accepted: a premise that is not needed",
            implies(20, is(5), up_to(5), &[&good, &good]),
        ),
    ]
}

/// Lines of other entries, and each line of the image for the first entry.
fn swapped() -> Vec<HandoverCase> {
    let mut cases = Vec::new();
    for entry in 0..5 {
        for line in 1..=5 {
            let mut table = TABLE;
            table[3 * entry + 1] = line;
            let label = format!("entry {entry}: line {line}");
            cases.push(case(label, old_code().bytes(), new_code().bytes(), &table));
        }
    }
    cases
}

/// What is said of thread 2 is true by itself, so several rules show it.
fn by_other_rules() -> Vec<HandoverCase> {
    let never = Interval::all(Test::False);
    let same = included(46, never.clone(), never, &[]);
    let needless = seen(1, &same);
    let zero = implies(27, Assertion::Start, is(0), &[]);
    vec![
        naming("accepted: by rule 21", LAST, &[implies(21, truth(), truth(), &[])]),
        naming(
            "accepted: by a truth table with premises",
            LAST,
            &[implies(20, truth(), truth(), &[&needless, &zero])],
        ),
        naming("34: by rule 24", LAST, &[implies(24, truth(), truth(), &[])]),
        naming("34: by rule 25", LAST, &[implies(25, truth(), truth(), &[])]),
        naming("34: from start", LAST, &[implies(20, Assertion::Start, truth(), &[])]),
        naming("34: from false", LAST, &[implies(20, Assertion::holds(Test::False), truth(), &[])]),
    ]
}

/// Formulas are compared by their bytes, whatever their numbers and whatever they mean.
fn other_bytes() -> Vec<HandoverCase> {
    let (old, at) = (old_code().bytes(), ABOUT_FIVE / 3);
    let changed = |label: &str, change: &dyn Fn(&mut Written)| {
        let mut image = new_written();
        change(&mut image);
        case(label, old.clone(), image.bytes(), &TABLE)
    };
    let again = |image: &mut Written, number: u16| {
        image.formulas.push(image.formulas[usize::from(number) - 1].clone());
        image.formulas.len() as u16
    };
    let negated = |image: &mut Written, number: u16| {
        let bytes = &image.formulas[usize::from(number) - 1];
        image.formulas.push([&[28, 11, 11][..], &bytes[1..]].concat());
        image.formulas.len() as u16
    };
    vec![
        changed("accepted: the left formula written again", &|image| {
            image.lines[at].left = again(image, image.lines[at].left);
        }),
        changed("accepted: the right formula written again", &|image| {
            image.lines[at].right = again(image, image.lines[at].right);
        }),
        changed("accepted: the outline's formula written again", &|image| {
            image.outline[0] = again(image, image.outline[0]);
        }),
        changed("34: the left formula twice negated", &|image| {
            image.lines[at].left = negated(image, image.lines[at].left);
        }),
        changed("34: the right formula twice negated", &|image| {
            image.lines[at].right = negated(image, image.lines[at].right);
        }),
    ]
}
