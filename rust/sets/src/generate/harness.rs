//! Plans in which one chosen proof decides an obligation.
//!
//! Every assertion of the outline is "true". A triple from P to Q then decides an
//! obligation by way of either(P, true) and either(Q, true), at a pair's point by
//! rule 50 behind them; an implication is named as a premise of a truth table that
//! does not need it; an inclusion is made an implication first. A line by rule 50
//! may be no premise, so the outline has its sides.

use reference::assemble::Plan;
use reference::checker::obligations::{duties, Duty};
use reference::checker::rules::table::implies_by_table;
use reference::checker::rules::{before_notes, OF_PAIR};
use reference::formula::{Assertion, Test};
use reference::image::{Header, Instruction, Program, Statement, Thread};
use reference::proof::{around, choice, consequence, implies, seen, triple, Lemma};
use std::rc::Rc;
use std::slice;

/// A program whose assertions are all "true".
pub fn program(header: Header, threads: Vec<Thread>) -> Program {
    let truth = Rc::new(Assertion::truth());
    let outline = threads.iter().map(|thread| vec![truth.clone(); thread.len() + 1]).collect();
    Program { header, threads, outline }
}

/// A plan in which each obligation is met, if every assertion of the outline is
/// true by truth table, or false and never reached.
pub fn plan(program: Program) -> Plan {
    let duties = duties(&program.threads);
    let obligations = duties.iter().map(|duty| Some(trivial(&program, duty))).collect();
    Plan::new(program, obligations)
}

/// The plan in which the lemma decides one of the obligations that it can decide.
pub fn deciding(program: Program, lemma: &Lemma, choice: usize) -> Plan {
    if lemma.rule == OF_PAIR {
        return deciding_whole(program, lemma);
    }
    let mut plan = plan(program);
    let duties = duties(&plan.program.threads);
    let able = |index: &usize| can_decide(lemma, &duties[*index], &plan.program);
    let able: Vec<usize> = (0..duties.len()).filter(able).collect();
    let chosen = able[choice % able.len()];
    plan.obligations[chosen] = Some(by_way_of(&plan.program, &duties[chosen], lemma));
    plan
}

/// The plan in which a line by rule 50, with "or true" on both its sides, is an obligation's own.
fn deciding_whole(mut program: Program, lemma: &Lemma) -> Plan {
    let (thread, point) = lemma.statement.place();
    let [left, right] = [lemma.assertions().0, lemma.assertions().1]
        .map(|side| Rc::new(Assertion::either(side.clone(), Assertion::truth())));
    let weaker = |premise: &Lemma| match premise.statement {
        Statement::Triple { .. } => {
            choice(premise, &keep(&program, premise.statement.place(), Assertion::truth()))
        }
        _ => premise.clone(),
    };
    let premises: Vec<Lemma> = lemma.premises.iter().map(weaker).collect();
    let whole = triple(
        OF_PAIR,
        (thread, point),
        left.clone(),
        right.clone(),
        &premises.iter().collect::<Vec<_>>(),
    );
    let assertions = &mut program.outline[usize::from(thread) - 1];
    assertions[usize::from(point)] = left;
    assertions[usize::from(point) + 1] = right;
    let mut plan = plan(program);
    let own = Duty::Next { thread, point };
    let index = duties(&plan.program.threads).iter().position(|duty| *duty == own);
    plan.obligations[index.expect("an instruction at the place")] = Some(whole);
    plan
}

/// The place of the action that an obligation is about.
fn place(duty: &Duty) -> Option<(u8, u8)> {
    match *duty {
        Duty::Next { thread, point } => Some((thread, point)),
        Duty::Kept { actor, action, .. } => Some((actor, action)),
        _ => None,
    }
}

/// A triple decides where its instruction acts, the others where an implication is wanted.
fn can_decide(lemma: &Lemma, duty: &Duty, program: &Program) -> bool {
    match lemma.statement {
        Statement::Triple { thread, point, .. } => place(duty) == Some((thread, point)),
        _ => matches!(duty.wanted(program), Statement::Implication { .. }),
    }
}

/// Rule 1 or 2: the instruction at a place, a pair's first half, keeps what names nothing.
fn keep(program: &Program, place: (u8, u8), kept: Assertion) -> Lemma {
    let action = program.instruction(place.0, place.1);
    let assigns = action.is_some_and(|action| action.assignments().is_some());
    triple(if assigns { 2 } else { 1 }, place, kept.clone(), kept, &[])
}

/// The triple that an obligation wants; at a pair's point by rule 50 from what `first` makes for the first half.
fn concluded(
    program: &Program,
    place: (u8, u8),
    (left, right): (Rc<Assertion>, Rc<Assertion>),
    first: impl Fn(Rc<Assertion>, Rc<Assertion>) -> Lemma,
) -> Lemma {
    match program.instruction(place.0, place.1).and_then(Instruction::pair_note) {
        None => first(left, right),
        Some(note) => {
            let before = before_notes(&right, slice::from_ref(note));
            triple(OF_PAIR, place, left.clone(), right, &[&first(left, before)])
        }
    }
}

/// A proof that does not rest on any lemma.
fn trivial(program: &Program, duty: &Duty) -> Lemma {
    match (duty.wanted(program), place(duty)) {
        (Statement::Implication { left, right }, _) => implies(20, left, right, &[]),
        (Statement::Triple { left, right, .. }, Some(place)) => {
            concluded(program, place, (left, right), |left, right| {
                let kept = keep(program, place, between(&left, &right));
                if (&left, &right) == kept.assertions() {
                    kept
                } else {
                    consequence(left, &kept, right)
                }
            })
        }
        _ => panic!("an obligation is a triple with a place or an implication"),
    }
}

/// What is kept on the way from the left side to the right one: "true" if that gives the right side, "false" if the
/// left side gives it, else the right side itself.
fn between(left: &Rc<Assertion>, right: &Rc<Assertion>) -> Assertion {
    let [truth, falsehood] =
        [Test::truth(), Test::False].map(|test| Rc::new(Assertion::holds(test)));
    let by_table = |from, to| implies_by_table((from, to), &[]) == Some(true);
    if by_table(&truth, right) {
        Assertion::truth()
    } else if by_table(left, &falsehood) {
        Assertion::holds(Test::False)
    } else {
        Assertion::clone(right)
    }
}

/// A proof of the obligation that is justified exactly if the lemma is.
fn by_way_of(program: &Program, duty: &Duty, lemma: &Lemma) -> Lemma {
    match (&lemma.statement, duty.wanted(program)) {
        (Statement::Inclusion { .. }, _) => by_way_of(program, duty, &seen(1, lemma)),
        (Statement::Implication { .. }, Statement::Implication { left, right }) => {
            implies(20, left, right, &[lemma])
        }
        (Statement::Triple { thread, point, .. }, Statement::Triple { left, right, .. }) => {
            let place = (*thread, *point);
            let middle = choice(lemma, &keep(program, place, Assertion::truth()));
            let (p, q) = middle.assertions();
            concluded(program, place, (left, right), |left, right| {
                let before = implies(20, left, p.clone(), &[]);
                around(&before, &middle, &implies(20, q.clone(), right, &[]))
            })
        }
        _ => panic!("the lemma cannot decide this obligation"),
    }
}
