//! Trimming keeps what an image says, and nothing that it does not rest on.

use reference::assemble::Plan;
use reference::checker::{check, decode};
use reference::explore::{explore, Bounds, Outcome};
use reference::formula::{Interval, Test};
use reference::image::written::Written;
use reference::image::Image;
use reference::proof::{included, Lemma};
use reference::trim::{trim_into, trimmed, Answer};
use sets::examples::{largest, message_passing, two_writes};
use sets::generate::clutter;

/// Sees to all that Change 2 says of the result; answers with it.
fn trim_well(bytes: &[u8]) -> Vec<u8> {
    let result = trimmed(bytes).expect("accepted");
    assert!(result.len() <= bytes.len());
    assert_eq!(check(&result), check(bytes));
    assert_eq!(trimmed(&result).as_ref(), Some(&result), "trimmed again");
    let [before, after] = [bytes, &result].map(|bytes| decode(bytes).expect("in order"));
    assert_eq!(before.program, after.program);
    let meetings = |image: &Image| -> Vec<_> { image.claims.iter().map(|c| c.meeting).collect() };
    assert_eq!(meetings(&before), meetings(&after));
    same_proofs(&before, &after);
    result
}

/// Each obligation and claim has the same tree of lines; each line of the trimmed image is in one of them.
fn same_proofs(before: &Image, after: &Image) {
    let named = |image: &Image| -> Vec<u16> {
        image.obligations.iter().copied().chain(image.claims.iter().map(|c| c.line)).collect()
    };
    let mut waiting: Vec<(u16, u16)> = named(before).into_iter().zip(named(after)).collect();
    let mut met = vec![None; after.lines.len()];
    while let Some((old, new)) = waiting.pop() {
        let place = &mut met[usize::from(new) - 1];
        if let Some(same) = place {
            assert_eq!(*same, old, "one line for two");
            continue;
        }
        *place = Some(old);
        let [one, other] = [(before, old), (after, new)].map(|(i, n)| &i.lines[usize::from(n) - 1]);
        assert_eq!((one.rule, &one.statement), (other.rule, &other.statement));
        assert_eq!(one.premises.len(), other.premises.len());
        waiting.extend(one.premises.iter().copied().zip(other.premises.iter().copied()));
    }
    let old: Option<Vec<u16>> = met.into_iter().collect();
    let old = old.expect("every line that is left is rested on");
    assert!(old.windows(2).all(|pair| pair[0] < pair[1]), "the old order");
}

#[test]
fn generated_images() {
    let (mut accepted, mut shorter, mut refused) = (0, 0, 0);
    for seed in 0..4000 {
        let bytes = clutter::image(seed);
        if check(&bytes).code != 0 {
            let mut room = [9; 64];
            assert_eq!(trim_into(&bytes, &mut room), Answer { code: 24, length: 0 });
            assert_eq!(room, [9; 64]);
            refused += 1;
            continue;
        }
        accepted += 1;
        shorter += usize::from(trim_well(&bytes).len() < bytes.len());
    }
    println!("{accepted} accepted, {shorter} of them became shorter, {refused} refused");
    assert!(accepted > 3000 && shorter > 2500 && refused > 100);
}

/// Lines about formulas that nothing else names.
fn spare() -> Vec<Lemma> {
    let covered = || Interval::all(Test::Covered(2));
    let one = included(46, covered(), covered(), &[]);
    let both = included(41, covered(), Interval::both(covered(), covered()), &[&one, &one]);
    vec![one, both]
}

#[test]
fn message_passing_with_spare_lines() {
    // Nothing of the plan is left out: each line is there because an obligation rests on it.
    let plan = message_passing();
    let cluttered = Plan { spare: spare(), ..plan.clone() }.bytes();
    let lines = |bytes: &[u8]| Written::read(bytes).expect("in order").lines.len();
    assert_eq!(lines(&cluttered), lines(&plan.bytes()) + 2);
    let result = trim_well(&cluttered);
    assert_eq!(result, plan.bytes());
    let program = decode(&result).expect("in order").program;
    let found =
        explore(&program, &[], Bounds { steps: 12, writes: 4, starts: 8, states: 2_000_000 });
    assert_eq!(found.outcome, Outcome::Holds { all: true });
}

#[test]
fn proofs_by_hand_have_no_dead_lines() {
    for plan in [message_passing(), two_writes()] {
        assert_eq!(trim_well(&plan.bytes()), plan.bytes());
    }
}

#[test]
fn the_largest_image() {
    let image = largest();
    let [before, after] = [&image, &trim_well(&image)].map(|b| Written::read(b).expect("in order"));
    assert_eq!((before.formulas.len(), before.lines.len()), (500, 4000));
    assert!(after.formulas.len() < 500 && after.lines.len() < 4000);
    assert_eq!(after.obligations.len(), 2944);
}
