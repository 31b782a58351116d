//! Why an assertion is false: its false parts, and for what a thread should see a prospect that violates it.

use crate::text::print::Names;
use reference::explore::truth::{is_true, reach, violation};
use reference::formula::{Assertion, Formula, Interval};
use reference::image::Header;
use reference::machine::{State, View};

/// A part of the assertion that is false.
#[derive(Debug, Clone)]
pub struct Fault {
    pub text: String,
    /// Of what a thread should see: the thread, and views that it may come to and that do not satisfy it.
    pub prospect: Option<(u8, Vec<View>)>,
}

/// The false parts of an assertion, from left to right.
pub fn faults(names: &Names, header: &Header, state: &State, a: &Assertion) -> Vec<Fault> {
    if is_true(a, state, header) {
        return Vec::new();
    }
    match a {
        Assertion::Both(p, q) | Assertion::Either(p, q) => {
            let parts = [p, q].into_iter();
            parts.flat_map(|part| faults(names, header, state, part)).collect()
        }
        Assertion::Sees(thread, interval) => {
            let chain = violation(state, *thread, interval).expect("it is false");
            let prospect = Some((*thread, shortest(state, interval, chain)));
            vec![Fault { text: told(names, a), prospect }]
        }
        Assertion::Start | Assertion::Holds(_) => {
            vec![Fault { text: told(names, a), prospect: None }]
        }
    }
}

/// An assertion in words; of one that `let` names, what it stands for as well.
fn told(names: &Names, a: &Assertion) -> String {
    let is_other =
        |(formula, _): &(Formula, String)| !matches!(formula, Formula::Assertion(b) if **b == *a);
    let mut written = names.clone();
    written.shorts.retain(is_other);
    match written.shorts.len() == names.shorts.len() {
        true => names.assertion(a),
        false => format!("{}, that is {}", names.assertion(a), written.assertion(a)),
    }
}

/// The prospect without the views that are not needed to violate the interval.
fn shortest(state: &State, interval: &Interval, chain: Vec<View>) -> Vec<View> {
    let violates = |views: &[View]| reach(state, interval, views, 0) < views.len();
    let mut views = chain;
    let mut at = 0;
    while at < views.len() {
        let mut fewer = views.clone();
        fewer.remove(at);
        if violates(&fewer) {
            views = fewer;
        } else {
            at += 1;
        }
    }
    views
}

#[cfg(test)]
mod tests {
    use super::*;
    use crate::text::parse_source::parse;
    use reference::machine::{take, Step};

    #[test]
    fn false_parts_have_the_least_prospect() {
        let text = "word x = 0 word y = 0
let Jump = u sees [x = 0] ; [x = 2]
thread t registers r { true } x := 1 { true } x := 2 { true } y := 1 { r = 1 or Jump and true }
thread u { true }";
        let source = parse(text).expect("a source");
        let program = source.program();
        let mut state = State::start(&program.header);
        for position in [0, 1, 0] {
            state = take(&program.threads, &state, Step { thread: 1, position }).expect("a step");
        }
        let found = faults(&source.names, &program.header, &state, program.assertion(1, 3));
        let texts: Vec<&str> = found.iter().map(|f| f.text.as_str()).collect();
        assert_eq!(texts, ["r = 1", "Jump, that is u sees [x = 0] ; [x = 2]"]);
        assert!(found[0].prospect.is_none());
        let (thread, views) = found[1].prospect.clone().expect("a prospect");
        assert_eq!((thread, views.len(), views[0].at(1)), (2, 1, 1), "x = 1 alone violates it");
        assert!(faults(&source.names, &program.header, &state, &Assertion::truth()).is_empty());
    }
}
