//! Rules 7 and 8 joined: what a releasing store says of its word's value and of what it hands over, at the same views.

use crate::search::plan::Plan;
use crate::search::prover::Prover;
use crate::search::triple::Context;
use crate::search::write::unsync;
use crate::terms::*;
use reference::formula::atoms::{Atom, Atoms};
use reference::formula::Interval;

impl Prover<'_> {
    /// From I ; one x = f and I ; [unsync x] ; K to what both give together.
    pub fn ways_by_release(&mut self, context: &Context, u: u8, j: &I, ways: &mut Vec<Plan>) {
        let at = context.at;
        let Some(store) = self.instruction(at).releasing_store() else { return };
        let (x, new): (u8, I) = (store.word, store.settled().into());
        if !says_both(j, x) {
            return;
        }
        let alone = sees(at.thread, &Interval::One(x).into());
        for i in self.fronts(context, u, j) {
            let value = sees(u, &chop(&i, &new));
            for k in self.passed_on(context, x, j) {
                let data = sees(u, &chop(&i, &chop(&unsync(x), &k)));
                let Some(last) = self.implied(&both(&value, &data), &sees(u, j)) else { continue };
                let (seen, passed) = (sees(u, &i), sees(at.thread, &k));
                let seven = self.step(at, 7, &both(&alone, &seen), &value, &[]);
                let eight = self.step(at, 8, &both(&alone, &both(&seen, &passed)), &data, &[]);
                if let (Some(seven), Some(eight)) = (seven, eight) {
                    let all = Plan::All(Plan::Ready(seven).into(), Plan::Ready(eight).into());
                    ways.push(Plan::Then(all.into(), last));
                }
            }
        }
    }
}

/// Does the interval join something about the word's value with something about its handing over?
fn says_both(j: &I, x: u8) -> bool {
    match &**j {
        Interval::All(_) | Interval::One(_) => false,
        Interval::Both(a, b) => {
            let value =
                |i: &I| i.has_atom(|atom| matches!(atom, Atom::Word(y) | Atom::One(y) if y == x));
            let handed = |i: &I| i.has_atom(|atom| atom == Atom::Unsync(x));
            let joined = handed(a) && value(b) || value(a) && handed(b);
            joined || says_both(a, x) || says_both(b, x)
        }
        Interval::Chop(a, b) | Interval::Either(a, b) => says_both(a, x) || says_both(b, x),
    }
}
