//! That something never happens, as a verdict: an outline is inferred from which it follows, and judged.
//!
//! What never happens is taken apart into cases, each a row of comparisons of registers and last values. A case is ruled
//! out by an assertion at a thread's last point: not these registers, or else the thread sees none of these values, its
//! last view of the words among what it sees. Where that is not true while others still run, a check is put behind each
//! thread of the case, which goes on only if the thread's registers are those of the case; then two of the threads never
//! stand behind their checks together.

use super::Litmus;
use crate::c::lower::Placed;
use crate::c::program::Whole;
use crate::c::text::{outline, Said};
use crate::further::infer_first_by_published;
use crate::infer::{Answer as Inferred, Found, Wish};
use crate::terms::*;
use crate::text::condition::Quantifier;
use crate::text::parse_source::parse;
use crate::text::source::Source;
use reference::checker::rules::Rules;
use reference::explore::truth::is_true;
use reference::explore::{find, Bounds};
use reference::formula::Test;
use reference::image::{Instruction, Program};
use reference::machine::State;

/// A row of comparisons, all of which would have to be true.
type Case = Vec<T>;

/// More cases are not taken apart.
const MOST_CASES: usize = 8;

/// What came of it.
pub enum Proof {
    /// The outline, and what was found.
    Proved(String, Box<Found>),
    /// Why there is none.
    NotFound(String),
}

/// Looks for an outline from which it follows that the condition's case never happens.
pub fn prove(
    litmus: &Litmus,
    bounds: Bounds,
    rules: Rules,
    tries: u64,
    watch: &dyn Fn(u64, u64) -> bool,
) -> Proof {
    let never = match litmus.condition.quantifier {
        Quantifier::Forall => not(&litmus.condition.test),
        Quantifier::Exists | Quantifier::NotExists => litmus.condition.test.clone(),
    };
    let Some(cases) = cases(&never, true).filter(|cases| cases.len() <= MOST_CASES) else {
        return Proof::NotFound(format!("the condition has more than {MOST_CASES} cases"));
    };
    let asked = [by_assertions(litmus, &cases, bounds), by_checks(litmus, &cases, bounds)];
    let mut proof = Proof::NotFound(
        "no assertion at one thread's end, and no two threads' ends, rule it out by themselves"
            .into(),
    );
    for text in asked.iter().flatten() {
        proof = judged(text, rules, tries, watch);
        if matches!(proof, Proof::Proved(..)) {
            break;
        }
    }
    proof
}

/// Infers what the text asks for.
fn judged(text: &str, rules: Rules, tries: u64, watch: &dyn Fn(u64, u64) -> bool) -> Proof {
    let mut source: Source = match parse(text) {
        Ok(source) => source,
        Err(mistake) => {
            return Proof::NotFound(format!("it does not fit into an outline: {mistake}"))
        }
    };
    source.rules = rules;
    match infer_first_by_published(&source, &Wish::of(&source, false), tries, watch) {
        Inferred::Found(found) => match crate::infer::written(text, &source, &found.source) {
            Ok(outline) => Proof::Proved(outline, found),
            Err(told) => Proof::NotFound(told),
        },
        Inferred::False(..) => {
            Proof::NotFound("a run breaks what is to be proved: a mistake in this tool".into())
        }
        Inferred::NotFound(end) => {
            Proof::NotFound(format!("no outline was found in {} tries", end.tried.tries))
        }
    }
}

/// The cases of a test, or of its negation: each a row of comparisons.
fn cases(test: &Test, sense: bool) -> Option<Vec<Case>> {
    let both = |a: &Test, b: &Test| -> Option<Vec<Case>> {
        let (a, b) = (cases(a, sense)?, cases(b, sense)?);
        let all = a.iter().flat_map(|one| b.iter().map(move |other| [&one[..], other].concat()));
        Some(all.collect::<Vec<Case>>()).filter(|all| all.len() <= 4 * MOST_CASES)
    };
    let each = |a: &Test, b: &Test| -> Option<Vec<Case>> {
        let all = [cases(a, sense)?, cases(b, sense)?].concat();
        Some(all).filter(|all| all.len() <= 4 * MOST_CASES)
    };
    match test {
        Test::Not(inner) => cases(inner, !sense),
        Test::And(a, b) if sense => both(a, b),
        Test::Or(a, b) if !sense => both(a, b),
        Test::And(a, b) | Test::Or(a, b) => each(a, b),
        Test::False if sense => Some(vec![]),
        Test::False => Some(vec![vec![]]),
        other => {
            let one = T::from(other.clone());
            Some(vec![vec![if sense { one } else { not(&one) }]])
        }
    }
}

/// The comparisons of a case that are of registers, and those of last values.
fn parts(case: &Case) -> (Vec<T>, Vec<T>) {
    case.iter().cloned().partition(|one| registers_only(one.as_ref()))
}

/// What a thread's last point would say to rule out a case.
fn ruled_out(case: &Case, thread: u8) -> A {
    let (registers, words) = parts(case);
    let not_registers = fold_right(&registers, and).map(|all| holds(&not(&all)));
    let not_words = fold_right(&words, and).map(|all| sees(thread, &crate::terms::all(&not(&all))));
    match (not_registers, not_words) {
        (Some(a), Some(b)) => either(&a, &b),
        (Some(one), None) | (None, Some(one)) => one,
        (None, None) => holds(&falsehood()),
    }
}

/// The outline in which last points rule out all cases, each at a thread where that is true.
fn by_assertions(litmus: &Litmus, cases: &[Case], bounds: Bounds) -> Option<String> {
    let program = litmus.program();
    let mut said: Vec<Vec<A>> = vec![vec![]; program.threads.len()];
    for case in cases {
        let thread = program
            .thread_numbers()
            .find(|thread| holds_at_end(&program, case, *thread, bounds))?;
        said[usize::from(thread) - 1].push(ruled_out(case, thread));
    }
    let last = |all: &Vec<A>| match fold_right(all, both) {
        Some(all) => litmus.names.assertion(&all),
        None => "?".into(),
    };
    let points: Vec<String> = said.iter().map(last).collect();
    Some(text(&litmus.whole, litmus, &points, ""))
}

/// Is a case ruled out wherever this thread has ended, and were all states looked at?
fn holds_at_end(program: &Program, case: &Case, thread: u8, bounds: Bounds) -> bool {
    let index = usize::from(thread) - 1;
    let said = ruled_out(case, thread);
    let wrong = |state: &State| {
        let has_ended = usize::from(state.points[index]) == program.threads[index].len();
        has_ended && !is_true(&said, state, &program.header)
    };
    let sought = find(program, bounds, &wrong);
    sought.all && sought.runs[0].is_none()
}

/// The outline with checks behind the threads of the one case, two of which never stand behind theirs together.
fn by_checks(litmus: &Litmus, cases: &[Case], bounds: Bounds) -> Option<String> {
    let [case] = cases else { return None };
    let owners = &litmus.program().header.owners;
    let of = |thread: u8| -> Option<T> {
        let own = |one: &&T| {
            registers_of(one.as_ref()).iter().all(|r| owners[usize::from(*r) - 1] == thread)
        };
        let (registers, _) = parts(case);
        fold_right(&registers.iter().filter(own).cloned().collect::<Vec<T>>(), and)
    };
    let checked: Vec<(u8, T)> =
        litmus.program().thread_numbers().filter_map(|t| Some((t, of(t)?))).collect();
    let mut whole = litmus.whole.clone();
    for (thread, test) in &checked {
        let code = &mut whole.functions[usize::from(*thread) - 1].code;
        let (at, target) = (code.end, code.placed.len() as u8);
        let instruction = Instruction::Branch { test: not(test), target };
        code.placed.push(Placed { instruction, at, order: None });
    }
    whole.check_room().ok()?;
    let program = whole.program(litmus.fits.range);
    let pairs = checked.iter().flat_map(|(a, _)| checked.iter().map(move |(b, _)| (*a, *b)));
    let (a, b) =
        pairs.filter(|(a, b)| a < b).find(|pair| never_together(&program, *pair, bounds))?;
    let end = |thread: u8| {
        format!(
            "{} {}",
            litmus.names.thread(thread),
            program.threads[usize::from(thread) - 1].len()
        )
    };
    let claim = format!("\nnever {} and {}\n", end(a), end(b));
    Some(text(&whole, litmus, &vec!["?".to_string(); whole.functions.len()], &claim))
}

/// Do two threads never stand at their last points together, and were all states looked at?
fn never_together(program: &Program, (a, b): (u8, u8), bounds: Bounds) -> bool {
    let at_end = |state: &State, thread: u8| {
        let index = usize::from(thread) - 1;
        usize::from(state.points[index]) == program.threads[index].len()
    };
    let sought = find(program, bounds, &|state| at_end(state, a) && at_end(state, b));
    sought.all && sought.runs[0].is_none()
}

/// The outline with holes, but for these assertions at last points.
fn text(whole: &Whole, litmus: &Litmus, last: &[String], behind: &str) -> String {
    let points = |(function, last): (&crate::c::program::Function, &String)| {
        let mut all = vec![Said::hole(); function.code.placed.len()];
        all.push(Said { label: None, assertion: last.clone() });
        all
    };
    let said: Vec<Vec<Said>> = whole.functions.iter().zip(last).map(points).collect();
    let head = format!("# {}: {}\n", litmus.name, litmus.told);
    head + &outline(whole, &litmus.names, litmus.fits.range, &said) + behind
}

#[cfg(test)]
mod tests {
    use super::*;

    fn is(number: u8, value: u8) -> T {
        equal(&register(number), &constant(value))
    }

    #[test]
    fn tests_are_taken_apart_into_cases() {
        let (a, b, c) = (is(1, 1), is(2, 1), equal(&word(1), &constant(2)));
        let test = and(&a, &or(&b, &not(&c)));
        assert_eq!(
            cases(&test, true),
            Some(vec![vec![a.clone(), b.clone()], vec![a.clone(), not(&c)]])
        );
        let none = [vec![not(&a)], vec![not(&b), c.clone()]];
        assert_eq!(cases(&test, false), Some(none.to_vec()));
        assert_eq!(cases(&falsehood(), true), Some(vec![]));
        assert_eq!(parts(&vec![a.clone(), c.clone()]), (vec![a.clone()], vec![c.clone()]));
        let said = ruled_out(&vec![a.clone(), c.clone()], 2);
        assert_eq!(said, either(&holds(&not(&a)), &sees(2, &all(&not(&c)))));
    }
}
