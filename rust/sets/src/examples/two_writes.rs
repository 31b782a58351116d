//! One writer of w1 := 1, w1 := 2 and a reader that loads w1 twice: the second
//! value read is not below the first.
//!
//! ```text
//! thread 1: 0: w1 := 1      thread 2: 0: r1 := w1
//!           1: w1 := 2                1: r2 := w1
//!           2:                        2: holds not(r2 < r1)
//! ```

use reference::assemble::Plan;
use reference::checker::obligations::{duties, Duty};
use reference::formula::parse::Counts;
use reference::formula::{Assertion, Interval, Test, Value};
use reference::image::{Access, Header, Program};
use reference::proof::{around, choice, consequence, implies, included, pair, seen, triple, Lemma};
use std::rc::Rc;

const X: u8 = 1;
const WRITER: u8 = 1;
const READER: u8 = 2;

/// The image with its proof.
pub fn two_writes() -> Plan {
    let program = program();
    let prove = |duty: &Duty| match *duty {
        Duty::Start { thread: WRITER } => at_start(),
        Duty::Start { .. } => {
            implies(20, Assertion::Start, waiting(), &[&reader_at_start(), &first_waits()])
        }
        Duty::Next { thread: WRITER, point } => writer_step(point),
        Duty::Next { point: 0, .. } => first_load(),
        Duty::Next { .. } => second_load(),
        Duty::Kept { thread: WRITER, point, action, .. } => {
            unaffected(writer_at(point), reader_at(action), (READER, action))
        }
        Duty::Kept { point, action, .. } => kept_by_writer(point, action),
        Duty::Taken { .. } => unreachable!("no branch"),
    };
    let obligations = duties(&program.threads).iter().map(|duty| Some(prove(duty))).collect();
    Plan::new(program, obligations)
}

fn program() -> Program {
    let store = |value| {
        Access::Store { word: X, value: Rc::new(Value::Constant(value)), releasing: false }.into()
    };
    let load = |register| Access::Load { register, word: X, acquiring: false }.into();
    let counts = Counts { threads: 2, words: 1, registers: 2, range: 8 };
    Program {
        header: Header::cleared(counts, vec![0], vec![READER, READER]),
        threads: vec![vec![store(1), store(2)], vec![load(1), load(2)]],
        outline: vec![
            (0..3).map(|point| Rc::new(writer_at(point))).collect(),
            (0..3).map(|point| Rc::new(reader_at(point))).collect(),
        ],
    }
}

/// x = value
fn is(value: u8) -> Test {
    Test::equal(Value::Word(X), Value::Constant(value))
}

/// [x = value]
fn all(value: u8) -> Interval {
    Interval::all(is(value))
}

fn chop(a: Interval, b: Interval) -> Interval {
    Interval::chop(a, b)
}

/// [x = 1];[x = 2]
fn late() -> Interval {
    chop(all(1), all(2))
}

/// both(one x, [x = value])
fn settled(value: u8) -> Interval {
    Interval::both(Interval::One(X), all(value))
}

fn last() -> Assertion {
    Assertion::sees(WRITER, Interval::One(X))
}

fn reader(interval: Interval) -> Assertion {
    Assertion::sees(READER, interval)
}

/// The register holds the value.
fn read(register: u8, value: u8) -> Assertion {
    Assertion::holds(equals(register, value))
}

fn equals(register: u8, value: u8) -> Test {
    Test::equal(Value::Register(register), Value::Constant(value))
}

/// Before the first load.
fn waiting() -> Assertion {
    reader(chop(all(0), late()))
}

/// The first load read 1 or 2.
fn read_late() -> Assertion {
    Assertion::either(
        Assertion::both(read(1, 1), reader(late())),
        Assertion::both(read(1, 2), reader(all(2))),
    )
}

fn in_order() -> Assertion {
    Assertion::holds(Test::negated(Test::less(Value::Register(2), Value::Register(1))))
}

fn writer_at(point: u8) -> Assertion {
    match point {
        0 => Assertion::both(last(), reader(all(0))),
        1 => Assertion::both(last(), reader(chop(all(0), all(1)))),
        _ => Assertion::truth(),
    }
}

fn reader_at(point: u8) -> Assertion {
    match point {
        0 => waiting(),
        1 => Assertion::either(read(1, 0), read_late()),
        _ => in_order(),
    }
}

/// start to the thread sees a part of both(one x, [x = 0]), by rule 39 or 40.
fn initially(thread: u8, rule: u8, part: Interval) -> Lemma {
    let first = implies(26, Assertion::Start, Assertion::sees(thread, settled(0)), &[]);
    let to_part = seen(thread, &included(rule, settled(0), part.clone(), &[]));
    implies(20, Assertion::Start, Assertion::sees(thread, part), &[&first, &to_part])
}

fn reader_at_start() -> Lemma {
    initially(READER, 40, all(0))
}

fn at_start() -> Lemma {
    let own = initially(WRITER, 39, Interval::One(X));
    implies(20, Assertion::Start, writer_at(0), &[&own, &reader_at_start()])
}

/// The reader sees [x = 0], so it waits as it should.
fn first_waits() -> Lemma {
    seen(READER, &included(36, all(0), chop(all(0), late()), &[]))
}

/// Rule 1 at a place.
fn same(place: (u8, u8), assertion: Assertion) -> Lemma {
    triple(1, place, assertion.clone(), assertion, &[])
}

fn unaffected(assertion: Assertion, actor: Assertion, place: (u8, u8)) -> Lemma {
    let left = Assertion::both(assertion.clone(), actor);
    consequence(left, &same(place, assertion.clone()), assertion)
}

/// Rule 7: what the writer's store of `value` makes of what the reader sees.
fn stored(point: u8, before: Interval, value: u8) -> Lemma {
    let left = Assertion::both(last(), reader(before.clone()));
    triple(7, (WRITER, point), left, reader(chop(before, settled(value))), &[])
}

/// A;both(one x, [x = value]) in A;[x = value]
fn unsettled(before: Interval, value: u8) -> Lemma {
    let kept = included(46, before.clone(), before.clone(), &[]);
    let part = included(40, settled(value), all(value), &[]);
    let left = chop(before.clone(), settled(value));
    included(32, left, chop(before, all(value)), &[&kept, &part])
}

fn writer_step(point: u8) -> Lemma {
    if point == 1 {
        return consequence(writer_at(1), &same((WRITER, 1), Assertion::truth()), writer_at(2));
    }
    let own = triple(6, (WRITER, 0), last(), Assertion::sees(WRITER, settled(1)), &[]);
    let middle = pair(&own, &stored(0, all(0), 1));
    let (left, right) = middle.assertions();
    let before = implies(20, writer_at(0), left.clone(), &[]);
    let still_last = seen(WRITER, &included(39, settled(1), Interval::One(X), &[]));
    let seen_next = seen(READER, &unsettled(all(0), 1));
    let after = implies(20, right.clone(), writer_at(1), &[&still_last, &seen_next]);
    around(&before, &middle, &after)
}

/// Rule 3: the reader sees [x = value] and loads it.
fn loads(point: u8, value: u8) -> Lemma {
    let register = point + 1;
    triple(3, (READER, point), reader(all(value)), read(register, value), &[])
}

/// Rule 4: the reader loads the first value, or sees the rest.
fn loads_or(point: u8, value: u8, rest: Interval, premise: &Lemma) -> Lemma {
    let left = reader(chop(all(value), rest));
    let right = Assertion::either(read(point + 1, value), premise.assertions().1.clone());
    triple(4, (READER, point), left, right, &[premise])
}

fn first_load() -> Lemma {
    let place = (READER, 0);
    let two = pair(&loads(0, 2), &same(place, reader(all(2))));
    let two = consequence(reader(all(2)), &two, two.assertions().1.clone());
    let one_or_two = pair(&loads_or(0, 1, all(2), &two), &same(place, reader(late())));
    let one_or_two = consequence(reader(late()), &one_or_two, read_late());
    loads_or(0, 0, late(), &one_or_two)
}

fn second_load() -> Lemma {
    let place = (READER, 1);
    let none = ordered(&same(place, read(1, 0)), equals(1, 0));
    let one_or_two = loads_or(1, 1, all(2), &loads(1, 2));
    let one = pair(&same(place, read(1, 1)), &one_or_two);
    let later = Test::or(equals(2, 1), equals(2, 2));
    let one = ordered(&one, Test::and(equals(1, 1), later));
    let two = pair(&same(place, read(1, 2)), &loads(1, 2));
    let two = ordered(&two, Test::and(equals(1, 2), equals(2, 2)));
    consequence(reader_at(1), &choice(&none, &choice(&one, &two)), in_order())
}

/// The triple with "in order" on the right, by way of a test about registers.
fn ordered(middle: &Lemma, test: Test) -> Lemma {
    let (left, right) = middle.assertions();
    let before = implies(20, left.clone(), left.clone(), &[]);
    let by_rows = implies(21, Assertion::holds(test), in_order(), &[]);
    around(&before, middle, &implies(20, right.clone(), in_order(), &[&by_rows]))
}

fn kept_by_writer(point: u8, action: u8) -> Lemma {
    let before = Assertion::both(reader_at(point), writer_at(action));
    match (point, action) {
        (0, 0) => still_waiting(before, &stored(0, all(0), 1), &first_stored()),
        (0, _) => still_waiting(before, &stored(1, chop(all(0), all(1)), 2), &second_stored()),
        (1, 0) => kept_by_first(before),
        (1, _) => kept_by_second(before),
        _ => unaffected(in_order(), writer_at(action), (WRITER, action)),
    }
}

fn still_waiting(before: Assertion, middle: &Lemma, inclusion: &Lemma) -> Lemma {
    let first = implies(20, before, middle.assertions().0.clone(), &[]);
    around(&first, middle, &seen(READER, inclusion))
}

/// [x = 0];both(one x, [x = 1]) in [x = 0];([x = 1];[x = 2])
fn first_stored() -> Lemma {
    let part = included(40, settled(1), all(1), &[]);
    let longer = included(36, all(1), late(), &[]);
    let rest = included(31, settled(1), late(), &[&part, &longer]);
    let kept = included(46, all(0), all(0), &[]);
    included(32, chop(all(0), settled(1)), chop(all(0), late()), &[&kept, &rest])
}

/// ([x = 0];[x = 1]);both(one x, [x = 2]) in [x = 0];([x = 1];[x = 2])
fn second_stored() -> Lemma {
    let left = chop(chop(all(0), all(1)), settled(2));
    let middle = chop(all(0), chop(all(1), settled(2)));
    let moved = included(33, left.clone(), middle.clone(), &[]);
    let kept = included(46, all(0), all(0), &[]);
    let right = chop(all(0), late());
    let rest = included(32, middle, right.clone(), &[&kept, &unsettled(all(1), 2)]);
    included(31, left, right, &[&moved, &rest])
}

fn never() -> Interval {
    Interval::all(Test::False)
}

/// both([x = a], [x = b]) in [false]
fn clash(a: u8, b: u8) -> Lemma {
    let conjunction = Interval::all(Test::and(is(a), is(b)));
    let both = Interval::both(all(a), all(b));
    let joined = included(45, both.clone(), conjunction.clone(), &[]);
    let by_rows = included(30, conjunction, never(), &[]);
    included(31, both, never(), &[&joined, &by_rows])
}

/// both([x = k], [x = a];[x = b]) in [false]
fn clash_of_chop(k: u8, a: u8, b: u8) -> Lemma {
    let left = Interval::both(all(k), chop(all(a), all(b)));
    let parts = chop(Interval::both(all(k), all(a)), Interval::both(all(k), all(b)));
    let spread = included(38, left.clone(), parts.clone(), &[]);
    let twice = chop(never(), never());
    let each = included(32, parts.clone(), twice.clone(), &[&clash(k, a), &clash(k, b)]);
    let once = included(37, twice.clone(), never(), &[]);
    let reached = included(31, parts, never(), &[&each, &once]);
    included(31, left, never(), &[&spread, &reached])
}

/// both(the reader sees I, the reader sees J) to holds false, from both(I, J) in [false].
fn impossible(inclusion: &Lemma) -> Lemma {
    let (joined, left) = joined_left(inclusion);
    let none = implies(23, reader(never()), Assertion::holds(Test::False), &[]);
    let premises = [&joined, &seen(READER, inclusion), &none];
    implies(20, left, Assertion::holds(Test::False), &premises)
}

/// Rule 25 for the left side of an inclusion, and its own left side.
fn joined_left(inclusion: &Lemma) -> (Lemma, Assertion) {
    let Interval::Both(i, j) = inclusion.intervals().0.as_ref() else {
        panic!("the left side is a both");
    };
    let left =
        Assertion::both(Assertion::sees(READER, i.clone()), Assertion::sees(READER, j.clone()));
    let right = Assertion::sees(READER, inclusion.intervals().0.clone());
    (implies(25, left.clone(), right, &[]), left)
}

/// The first store comes before the reader can have read 1 or 2.
fn kept_by_first(before: Assertion) -> Lemma {
    let middle = same((WRITER, 0), read(1, 0));
    let help = [&impossible(&clash_of_chop(0, 1, 2)), &impossible(&clash(0, 2))];
    let first = implies(20, before, read(1, 0), &help);
    around(&first, &middle, &implies(20, read(1, 0), reader_at(1), &[]))
}

/// The second store comes before the reader can have read 2.
fn kept_by_second(before: Assertion) -> Lemma {
    let place = (WRITER, 1);
    let one = pair(&same(place, read(1, 1)), &stored(1, all(1), 2));
    let middle = choice(&same(place, read(1, 0)), &one);
    let help = [&sees_one(), &impossible(&clash_of_chop(2, 0, 1))];
    let (left, right) = middle.assertions();
    let first = implies(20, before, left.clone(), &help);
    let seen_next = seen(READER, &unsettled(all(1), 2));
    around(&first, &middle, &implies(20, right.clone(), reader_at(1), &[&seen_next]))
}

/// The reader sees [x = 0];[x = 1] and [x = 1];[x = 2], so it sees [x = 1].
fn sees_one() -> Lemma {
    let inclusion = only_one();
    let (joined, left) = joined_left(&inclusion);
    implies(20, left, reader(all(1)), &[&joined, &seen(READER, &inclusion)])
}

/// both([x = 0];[x = 1], [x = 1];[x = 2]) in [x = 1]
fn only_one() -> Lemma {
    let early = || chop(all(0), all(1));
    let left = Interval::both(early(), late());
    let parts = chop(Interval::both(early(), all(1)), Interval::both(early(), all(2)));
    let spread = included(38, left.clone(), parts.clone(), &[]);
    let first = included(40, Interval::both(early(), all(1)), all(1), &[]);
    let twice = chop(all(1), all(1));
    let each = included(32, parts.clone(), twice.clone(), &[&first, &not_two()]);
    let once = included(37, twice, all(1), &[]);
    let reached = included(31, parts, all(1), &[&each, &once]);
    included(31, left, all(1), &[&spread, &reached])
}

/// both([x = 0];[x = 1], [x = 2]) in [x = 1], as no view satisfies it.
fn not_two() -> Lemma {
    let early = || chop(all(0), all(1));
    let left = Interval::both(early(), all(2));
    let turned = Interval::both(all(2), early());
    let to_two = included(40, left.clone(), all(2), &[]);
    let to_early = included(39, left.clone(), early(), &[]);
    let turn = included(41, left.clone(), turned.clone(), &[&to_two, &to_early]);
    let any = included(30, never(), all(1), &[]);
    let reached = included(31, turned, all(1), &[&clash_of_chop(2, 0, 1), &any]);
    included(31, left, all(1), &[&turn, &reached])
}
