//! Exact truth of an assertion in a state.
//!
//! Interval truth survives dropping and repeating a view. So every prospect of a
//! thread satisfies an interval exactly if each maximal chain of views does, from
//! the thread's view to the view of all last writes, one word moving by one write
//! at a time.

use crate::formula::atoms::{Atom, Atoms};
use crate::formula::{Assertion, Interval};
use crate::image::Header;
use crate::machine::{State, View};

/// Whether the assertion is true in `state`; the header says which states are start states.
pub fn is_true(assertion: &Assertion, state: &State, header: &Header) -> bool {
    match assertion {
        Assertion::Sees(thread, interval) => sees(state, *thread, interval),
        Assertion::Both(a, b) => is_true(a, state, header) && is_true(b, state, header),
        Assertion::Either(a, b) => is_true(a, state, header) || is_true(b, state, header),
        Assertion::Start => state.is_start(header),
        Assertion::Holds(test) => test.evaluate(&state.seen_at(View::default())),
    }
}

/// Whether every prospect of the thread satisfies the interval.
pub fn sees(state: &State, thread: u8, interval: &Interval) -> bool {
    violation(state, thread, interval).is_none()
}

/// A prospect of the thread that does not satisfy the interval.
pub fn violation(state: &State, thread: u8, interval: &Interval) -> Option<Vec<View>> {
    let words = words_that_matter(state, interval);
    let mut chain = vec![state.view(thread)];
    failing_chain(state, interval, &words, &mut chain)
}

/// The words whose moves can change the interval's truth. `unsync` compares a
/// stored view in every word; without it only the words that are named matter.
fn words_that_matter(state: &State, interval: &Interval) -> Vec<u8> {
    let compares_all = interval.has_atom(|atom| matches!(atom, Atom::Unsync(_)));
    let named = |word: &u8| compares_all || interval.has_word(*word);
    (1..=state.rows.len() as u8).filter(named).collect()
}

/// A way to complete the chain that does not satisfy the interval.
fn failing_chain(
    state: &State,
    interval: &Interval,
    words: &[u8],
    chain: &mut Vec<View>,
) -> Option<Vec<View>> {
    let last = *chain.last().expect("a chain starts at the thread's view");
    let movable = |word: &&u8| usize::from(last.at(**word)) + 1 < state.row(**word).len();
    let mut complete = true;
    for &word in words.iter().filter(movable) {
        complete = false;
        chain.push(last.moved(word, last.at(word) + 1));
        let failing = failing_chain(state, interval, words, chain);
        chain.pop();
        if failing.is_some() {
            return failing;
        }
    }
    let fails = complete && reach(state, interval, chain, 0) < chain.len();
    fails.then(|| chain.clone())
}

/// The end of the longest part from `from` that satisfies the interval.
///
/// The satisfying parts from a place are an initial segment: a part of a
/// satisfying part satisfies, the empty one always does. So a chop is best cut
/// as late as its first half permits.
pub fn reach(state: &State, interval: &Interval, chain: &[View], from: usize) -> usize {
    let stretch = |passes: &dyn Fn(View) -> bool| {
        from + chain[from..].iter().take_while(|&&view| passes(view)).count()
    };
    match interval {
        Interval::All(test) => stretch(&|view| test.evaluate(&state.seen_at(view))),
        Interval::One(word) => stretch(&|view| view.at(*word) == chain[from].at(*word)),
        Interval::Chop(a, b) => reach(state, b, chain, reach(state, a, chain, from)),
        Interval::Both(a, b) => reach(state, a, chain, from).min(reach(state, b, chain, from)),
        Interval::Either(a, b) => reach(state, a, chain, from).max(reach(state, b, chain, from)),
    }
}
