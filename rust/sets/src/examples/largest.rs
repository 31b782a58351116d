//! About as many bytes, lines and formulas as an image may have: four threads of 16 points with 2,944 obligations, which
//! rest on half of the lines.

use super::deep::chops;
use reference::assemble::Plan;
use reference::checker::limits::{FORMULAS, LINES, POINTS, THREADS, WORDS};
use reference::checker::obligations::{duties, Duty};
use reference::formula::parse::Counts;
use reference::formula::{Assertion, Interval, Test, Value};
use reference::image::written::{image_bytes, Record};
use reference::image::{Access, Header, Program, Thread};
use reference::proof::{around, consequence, implies, included, seen, triple, Lemma};
use std::rc::Rc;

/// So many assertions take turns at the points of a thread, or there would be too many pairs of them.
const TURNS: u8 = 4;
/// No assertion speaks of the words that are loaded and stored.
const LOADED: u8 = 7;
const STORED: u8 = 8;

/// The image: every obligation has a line, and all lines are justified.
pub fn largest() -> Vec<u8> {
    let program = program();
    let obligations = duties(&program.threads).iter().map(|duty| Some(proof(duty))).collect();
    let mut plan = Plan { spare: vec![last()], ..Plan::new(program, obligations) };
    let more = FORMULAS - plan.written().formulas.len();
    plan.spare = (0..more).map(spare).chain([last()]).collect();
    image_bytes(&filled(plan.records()))
}

/// As many lines as there may be: the last of the spare ones again and again.
fn filled(records: Vec<Record>) -> Vec<Record> {
    let is_line = |record: &&Record| record.kind == reference::checker::frames::LINE;
    let lines = records.iter().filter(is_line).count();
    let again = records.iter().filter(is_line).find(|line| line.body[7] == 4);
    let again = vec![again.expect("the last spare line").clone(); LINES - lines];
    let (obligations, front) = records.split_last().expect("an image has records");
    [front, &again, std::slice::from_ref(obligations)].concat()
}

/// Loads and stores by turns.
fn program() -> Program {
    let instruction = |thread: u8, point: u8| match point % 2 {
        0 => Access::Load { register: thread, word: LOADED, acquiring: true }.into(),
        _ => {
            Access::Store { word: STORED, value: Value::Constant(1).into(), releasing: true }.into()
        }
    };
    let code = |thread: u8| -> Thread {
        (0..POINTS - 1).map(|point| instruction(thread, point)).collect()
    };
    let outline = |thread: u8| -> Vec<Rc<Assertion>> {
        (0..POINTS).map(|point| assertion(thread, point).into()).collect()
    };
    let counts = Counts { threads: THREADS, words: WORDS, registers: THREADS, range: 8 };
    Program {
        header: Header::cleared(counts, vec![0; WORDS.into()], (1..=THREADS).collect()),
        threads: (1..=THREADS).map(code).collect(),
        outline: (1..=THREADS).map(outline).collect(),
    }
}

fn truth() -> Interval {
    Interval::all(Test::truth())
}

/// either([true], a long interval of this turn's own)
fn interval(thread: u8, point: u8) -> Interval {
    let seed = 2 * usize::from(thread * TURNS + point % TURNS);
    Interval::either(truth(), Interval::both(chops(seed, 5), chops(seed + 1, 5)))
}

fn assertion(thread: u8, point: u8) -> Assertion {
    Assertion::sees(thread, interval(thread, point))
}

fn same(place: (u8, u8), assertion: Assertion) -> Lemma {
    triple(1, place, assertion.clone(), assertion, &[])
}

/// The assertion of a point, from whatever is on the left: it follows from "true".
fn reached(left: Assertion, thread: u8, point: u8) -> Lemma {
    let sees_truth = Assertion::sees(thread, truth());
    let by_rows = implies(24, Assertion::truth(), sees_truth, &[]);
    let weaker = seen(thread, &included(42, truth(), interval(thread, point), &[]));
    implies(20, left, assertion(thread, point), &[&by_rows, &weaker])
}

fn proof(duty: &Duty) -> Lemma {
    match *duty {
        Duty::Start { thread } => reached(Assertion::Start, thread, 0),
        Duty::Next { thread, point } => {
            let forgotten = implies(20, assertion(thread, point), Assertion::truth(), &[]);
            let next = reached(Assertion::truth(), thread, point + 1);
            around(&forgotten, &same((thread, point), Assertion::truth()), &next)
        }
        Duty::Kept { thread, point, actor, action } => {
            let kept = assertion(thread, point);
            let left = Assertion::both(kept.clone(), assertion(actor, action));
            consequence(left, &same((actor, action), kept.clone()), kept)
        }
        Duty::Taken { .. } => unreachable!("no branch"),
    }
}

/// A line on which nothing rests, with a formula of its own.
fn spare(seed: usize) -> Lemma {
    let pair = |seed: usize| Interval::both(chops(seed, 6), chops(seed + 1, 5));
    let interval = Interval::both(pair(40 + seed), pair(42 + seed));
    match seed % 2 {
        0 => included(46, interval.clone(), interval, &[]),
        _ => same((1, 1), Assertion::sees(2, interval)),
    }
}

/// The last spare line, with four premises.
fn last() -> Lemma {
    let same = implies(20, Assertion::truth(), Assertion::truth(), &[]);
    implies(20, Assertion::truth(), Assertion::truth(), &[&same; 4])
}
