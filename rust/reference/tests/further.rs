//! The further rules, each with lines that it gives and with wrong neighbours: lines that look like it, that it does not
//! give, and that a reachable state breaks. They are those of `crates/logic_further/proofs/Neighbours.antt` and more.

use reference::assemble::Plan;
use reference::checker::rules::{follows, follows_by, further, rules, Form, Rules};
use reference::checker::{check, further as mode};
use reference::explore::truth::{is_true, sees};
use reference::explore::{reachable, Bounds};
use reference::formula::parse::Counts;
use reference::formula::{Assertion, Interval, Test, Value};
use reference::image::{Access, Header, Instruction, Program, Statement, Thread};
use reference::machine::{take, Step};
use reference::proof::{implies, triple};
use std::rc::Rc;

const X: u8 = 1;
const Y: u8 = 2;
const R: u8 = 1;

fn store(word: u8, value: u8) -> Instruction {
    Access::Store { word, value: constant(value), releasing: false }.into()
}

fn load(register: u8, word: u8) -> Instruction {
    Access::Load { register, word, acquiring: false }.into()
}

fn exchange(value: u8) -> Instruction {
    Access::Exchange { register: R, word: X, value: constant(value) }.into()
}

fn fetch_add(value: u8) -> Instruction {
    Access::FetchAdd { register: R, word: X, value: constant(value) }.into()
}

fn constant(value: u8) -> Rc<Value> {
    Value::Constant(value).into()
}

/// Words 1 and 2 with these start values; register 1 is the first thread's, 2 and 3 are the last one's.
fn program(start: [u8; 2], threads: Vec<Thread>) -> Program {
    let last = threads.len() as u8;
    let counts = Counts { threads: last, words: 2, registers: 3, range: 8 };
    let header = Header::cleared(counts, start.to_vec(), vec![1, last, last]);
    let truth = Rc::new(Assertion::truth());
    let outline = threads.iter().map(|code| vec![truth.clone(); code.len() + 1]).collect();
    Program { header, threads, outline }
}

fn is(word: u8, value: u8) -> Test {
    Test::equal(Value::Word(word), Value::Constant(value))
}

/// \[x = n\]
fn all(value: u8) -> Interval {
    Interval::all(is(X, value))
}

/// one x = n
fn only(value: u8) -> Interval {
    Interval::one_equal(X, Value::Constant(value))
}

fn at(thread: u8, point: u8, left: Assertion, right: Assertion) -> Statement {
    Statement::Triple { thread, point, left: left.into(), right: right.into() }
}

fn gives(left: Assertion, right: Assertion) -> Statement {
    Statement::Implication { left: left.into(), right: right.into() }
}

fn inside(left: Interval, right: Interval) -> Statement {
    Statement::Inclusion { left: left.into(), right: right.into() }
}

/// The rule gives it, and the published rules do not know the rule.
fn is_given(program: &Program, rule: u8, statement: &Statement, premises: &[&Statement]) {
    assert!(follows_by(Rules::WithFurther, program, rule, statement, premises), "rule {rule}");
    assert!(!follows_by(Rules::Published, program, rule, statement, premises), "rule {rule}");
    assert!(!follows(program, rule, statement, premises), "rule {rule}");
    assert!(!is_broken(program, statement), "rule {rule}");
}

/// No rule gives it, with these premises or without, and a reachable state breaks it.
fn is_wrong(program: &Program, statement: &Statement, premises: &[&Statement]) {
    for rule in rules().chain(further::rules()) {
        for premises in [premises, &[]] {
            let given = follows_by(Rules::WithFurther, program, rule, statement, premises);
            assert!(!given, "rule {rule} gives {statement:?}");
        }
    }
    assert!(is_broken(program, statement), "nothing breaks {statement:?}");
}

/// No rule gives it.
fn is_not_given(program: &Program, rule: u8, statement: &Statement, premises: &[&Statement]) {
    assert!(!follows_by(Rules::WithFurther, program, rule, statement, premises), "{statement:?}");
}

/// Whether a reachable state has the left side and not the right one, behind the instruction if there is one.
fn is_broken(program: &Program, statement: &Statement) -> bool {
    let bounds = Bounds { steps: 8, writes: 5, ..Bounds::DEFAULT };
    let is = |a: &Assertion, state: &_| is_true(a, state, &program.header);
    reachable(program, bounds).iter().any(|state| match statement {
        Statement::Triple { thread, point, left, right } => {
            let here = state.points[usize::from(*thread) - 1] == *point && is(left, state);
            let step = |position| take(&program.threads, state, Step { thread: *thread, position });
            here && (0..5).filter_map(step).any(|next| !is(right, &next))
        }
        Statement::Implication { left, right } => is(left, state) && !is(right, state),
        Statement::Inclusion { left, right } => program
            .thread_numbers()
            .any(|thread| sees(state, thread, left) && !sees(state, thread, right)),
    })
}

/// both(u sees [e], u sees [after]) to u sees [e].
fn kept_by_value(seer: u8, e: &Test, after: Interval) -> Statement {
    let seen = Assertion::sees(seer, Interval::all(e.clone()));
    at(1, 0, Assertion::both(seen.clone(), Assertion::sees(seer, after)), seen)
}

#[test]
fn every_further_rule_has_a_form_and_is_no_published_one() {
    assert_eq!(further::rules().collect::<Vec<u8>>(), (51..=61).collect::<Vec<u8>>());
    for rule in 0..=u8::MAX {
        let (published, more) = (Form::of_rule(rule), further::form(rule));
        assert!(published.is_none() || more.is_none(), "rule {rule}");
        assert_eq!(Rules::Published.form(rule), published);
        assert_eq!(Rules::WithFurther.form(rule), published.or(more));
    }
}

#[test]
fn rule_51_is_rule_9_for_exchange() {
    let program = program([1, 0], vec![vec![exchange(1)], vec![store(X, 5), load(2, X)]]);
    let small = Test::less(Value::Word(X), Value::Constant(6));
    let new = Interval::all(Test::less(Value::Constant(1), Value::Constant(6)));
    for seer in [1, 2] {
        is_given(&program, 51, &kept_by_value(seer, &small, new.clone()), &[]);
    }
    let of_other_words = Test::or(is(Y, 0), is(X, 3));
    let after =
        Interval::all(Test::or(is(Y, 0), Test::equal(Value::Constant(1), Value::Constant(3))));
    is_given(&program, 51, &kept_by_value(2, &of_other_words, after), &[]);
    let flag = Test::negated(Test::Covered(X));
    is_wrong(&program, &kept_by_value(2, &flag, Interval::all(flag.clone())), &[]);
    let sum = |value| Test::equal(Value::sum(value, Value::Register(R)), Value::Constant(1));
    let with_result =
        kept_by_value(2, &sum(Value::Word(X)), Interval::all(sum(Value::Constant(1))));
    is_wrong(&program, &with_result, &[]);
    let other_value = Interval::all(Test::less(Value::Constant(2), Value::Constant(6)));
    is_not_given(&program, 51, &kept_by_value(2, &small, other_value), &[]);
    let adds = self::program([1, 0], vec![vec![fetch_add(1)], vec![load(2, X)]]);
    is_not_given(&adds, 51, &kept_by_value(2, &small, new), &[]);
}

/// both(u sees [e], t sees [cov x];[after]) to u sees [e].
fn kept_by_sums(seer: u8, e: &Test, after: Test) -> Statement {
    let seen = Assertion::sees(seer, Interval::all(e.clone()));
    let sums = Interval::chop(Interval::all(Test::Covered(X)), Interval::all(after));
    at(1, 0, Assertion::both(seen.clone(), Assertion::sees(1, sums)), seen)
}

#[test]
fn rule_52_is_rule_9_for_each_sum_of_a_fetch_add() {
    let program = program([1, 0], vec![vec![fetch_add(1)], vec![load(2, X), load(3, Y)]]);
    let below = |value: Value, most| Test::less(value, Value::Constant(most));
    let sum = Value::sum(Value::Word(X), Value::Constant(1));
    let kept = kept_by_sums(2, &below(Value::Word(X), 3), below(sum.clone(), 3));
    is_given(&program, 52, &kept, &[]);
    // With the operand for x, as rule 9 has it.
    let operand = below(Value::Constant(1), 2);
    is_wrong(&program, &kept_by_sums(2, &below(Value::Word(X), 2), operand.clone()), &[]);
    let of_nine = kept_by_value(2, &below(Value::Word(X), 2), Interval::all(operand));
    is_wrong(&program, &of_nine, &[]);
    // Of another word: the sum is right where the adding thread is, and not where the other one is.
    let writes = vec![store(Y, 1), fetch_add(1)];
    let two = self::program([0, 0], vec![writes, vec![load(2, X), load(3, Y)]]);
    let before = Test::or(is(X, 0), is(Y, 1));
    let summed = Test::equal(Value::sum(Value::Word(X), Value::Constant(1)), Value::Constant(0));
    let Statement::Triple { left, right, .. } =
        kept_by_sums(2, &before, Test::or(summed, is(Y, 1)))
    else {
        unreachable!("a triple")
    };
    is_wrong(&two, &Statement::Triple { thread: 1, point: 1, left, right }, &[]);
    // With the result register, or seen by the wrong thread.
    let result = |value| Test::equal(Value::sum(value, Value::Register(R)), Value::Constant(1));
    is_not_given(&program, 52, &kept_by_sums(2, &result(Value::Word(X)), result(sum.clone())), &[]);
    let seen = Assertion::sees(2, Interval::all(below(Value::Word(X), 3)));
    let sums = Interval::chop(Interval::all(Test::Covered(X)), Interval::all(below(sum, 3)));
    let by_other = at(1, 0, Assertion::both(seen.clone(), Assertion::sees(2, sums)), seen);
    is_not_given(&program, 52, &by_other, &[]);
}

#[test]
fn rule_53_goes_by_one_view() {
    let program = program([0, 0], vec![vec![store(X, 1)], vec![load(2, X)]]);
    let never = || Assertion::holds(Test::False);
    let pair =
        |i: Interval, j: Interval| Assertion::both(Assertion::sees(1, i), Assertion::sees(2, j));
    is_given(&program, 53, &gives(pair(only(1), only(0)), never()), &[]);
    is_given(&program, 53, &gives(pair(Interval::chop(all(0), only(1)), all(2)), never()), &[]);
    is_given(&program, 53, &gives(pair(Interval::either(all(0), only(1)), all(2)), never()), &[]);
    let tied = Interval::all(Test::equal(Value::Word(X), Value::Register(2)));
    let known = Assertion::holds(Test::equal(Value::Register(2), Value::Constant(0)));
    is_given(&program, 53, &gives(pair(all(0), tied), known), &[]);
    // By the last part of I;J alone, by the first alone, with false for one x, and of one view.
    is_wrong(&program, &gives(pair(Interval::chop(all(0), all(1)), all(0)), never()), &[]);
    is_wrong(&program, &gives(pair(Interval::chop(all(0), all(1)), only(1)), never()), &[]);
    is_wrong(&program, &gives(pair(Interval::One(X), Interval::One(X)), never()), &[]);
    is_wrong(&program, &gives(pair(Interval::either(all(0), all(1)), all(1)), never()), &[]);
    let one = gives(Assertion::sees(1, Interval::chop(all(0), all(1))), never());
    is_wrong(&program, &one, &[]);
}

/// Two writers of x, and a reader of it.
fn writers() -> Program {
    program([0, 0], vec![vec![store(X, 1)], vec![store(X, 2)], vec![load(2, X), load(3, X)]])
}

#[test]
fn rule_54_puts_the_store_behind_one_write() {
    let program = writers();
    let behind = |left: Interval, i: Interval, new: Interval| {
        at(2, 0, Assertion::sees(3, left), Assertion::sees(3, Interval::chop(i, new)))
    };
    let one = |word: u8, i: Interval| Interval::both(Interval::One(word), i);
    is_given(&program, 54, &behind(one(X, all(0)), all(0), only(2)), &[]);
    is_given(&program, 54, &behind(one(X, only(1)), only(1), only(2)), &[]);
    // Without one x, or with one of another word: the store lands between the two writes that were seen.
    let risen = Interval::chop(only(0), only(1));
    is_wrong(&program, &behind(risen.clone(), risen.clone(), only(2)), &[]);
    is_wrong(&program, &behind(one(Y, risen.clone()), risen, only(2)), &[]);
    is_wrong(&program, &behind(one(X, all(0)), all(0), only(1)), &[]);
    is_not_given(
        &program,
        54,
        &behind(Interval::both(all(0), Interval::One(X)), all(0), only(2)),
        &[],
    );
    let reads = at(
        3,
        0,
        Assertion::sees(3, one(X, all(0))),
        Assertion::sees(3, Interval::chop(all(0), only(2))),
    );
    is_not_given(&program, 54, &reads, &[]);
}

#[test]
fn rule_55_goes_on_behind_the_first_write() {
    let program = writers();
    let (zero, one) = (only(0), only(1));
    let premise = at(
        2,
        0,
        Assertion::sees(3, one.clone()),
        Assertion::sees(3, Interval::chop(one.clone(), only(2))),
    );
    let right =
        |first: Interval, second: Interval| Assertion::sees(3, Interval::either(first, second));
    let between = Interval::chop(zero.clone(), Interval::chop(only(2), one.clone()));
    let behind = Interval::chop(zero.clone(), Interval::chop(one.clone(), only(2)));
    let left = |first: Interval| Assertion::sees(3, Interval::chop(first, one.clone()));
    let first = Interval::both(zero.clone(), Interval::One(X));
    let stated = at(2, 0, left(first.clone()), right(between.clone(), behind.clone()));
    is_given(&program, 55, &stated, &[&premise]);
    is_not_given(&program, 55, &stated, &[]);
    is_not_given(&program, 55, &stated, &[&premise, &premise]);
    // Without one x, or with one of another word, the first part may be of several writes.
    let low = || Interval::all(Test::less(Value::Word(X), Value::Constant(2)));
    let landed = |last: Interval| {
        let behind = Interval::chop(low(), Interval::chop(last.clone(), only(2)));
        right(Interval::chop(low(), Interval::chop(only(2), last)), behind)
    };
    let high = Interval::all(Test::less(Value::Constant(4), Value::Word(X)));
    let premise_high = at(
        2,
        0,
        Assertion::sees(3, high.clone()),
        Assertion::sees(3, Interval::chop(high.clone(), only(2))),
    );
    for first in [low(), Interval::both(low(), Interval::One(Y))] {
        let left = Assertion::sees(3, Interval::chop(first, high.clone()));
        is_wrong(&program, &at(2, 0, left, landed(high.clone())), &[&premise_high]);
    }
    // The new write before the first part.
    let before = Interval::chop(only(2), Interval::chop(zero, one.clone()));
    is_wrong(&program, &at(2, 0, left(first.clone()), right(before.clone(), before)), &[&premise]);
    // A premise about another thread's view.
    let other = at(2, 0, Assertion::sees(1, one.clone()), Assertion::sees(3, one.clone()));
    is_not_given(&program, 55, &at(2, 0, left(first), right(between, behind)), &[&other]);
}

#[test]
fn rule_56_goes_along_one_word() {
    let program =
        program([0, 0], vec![vec![store(X, 1)], vec![store(Y, 1)], vec![load(2, X), load(3, Y)]]);
    let divided = |i: Interval, j: Interval| {
        let whole = Assertion::sees(3, Interval::either(i.clone(), j.clone()));
        gives(whole, Assertion::either(Assertion::sees(3, i), Assertion::sees(3, j)))
    };
    is_given(&program, 56, &divided(Interval::chop(only(0), only(1)), only(1)), &[]);
    let covered =
        Interval::all(Test::and(Test::Covered(X), Test::equal(Value::Register(2), Value::Word(X))));
    is_given(&program, 56, &divided(covered, Interval::One(X)), &[]);
    // Of two words: no prospect has both, and from one state the thread may come to either.
    let not = |x, y| Interval::all(Test::negated(Test::and(is(X, x), is(Y, y))));
    is_wrong(&program, &divided(not(1, 0), not(0, 1)), &[]);
    let unsync = Interval::all(Test::negated(Test::Unsync(X)));
    is_not_given(&program, 56, &divided(unsync, only(1)), &[]);
    let other_way = gives(
        Assertion::sees(3, Interval::either(only(0), only(1))),
        Assertion::either(Assertion::sees(3, only(1)), Assertion::sees(3, only(0))),
    );
    is_not_given(&program, 56, &other_way, &[]);
}

#[test]
fn rules_57_to_59_are_of_empty_ends_and_of_both_sides() {
    let program = writers();
    let (nothing, truth) = (Interval::all(Test::False), Interval::all(Test::truth()));
    is_given(&program, 57, &inside(Interval::chop(only(0), nothing.clone()), only(0)), &[]);
    is_given(&program, 58, &inside(Interval::chop(nothing.clone(), only(0)), only(0)), &[]);
    is_wrong(&program, &inside(Interval::chop(all(0), truth.clone()), all(0)), &[]);
    is_wrong(&program, &inside(Interval::chop(truth, only(1)), only(1)), &[]);
    is_not_given(&program, 57, &inside(Interval::chop(nothing.clone(), only(0)), only(0)), &[]);
    is_not_given(&program, 58, &inside(Interval::chop(only(0), nothing.clone()), only(0)), &[]);
    is_not_given(&program, 57, &inside(Interval::chop(only(0), nothing), only(1)), &[]);
    let low = Interval::all(Test::less(Value::Word(X), Value::Constant(2)));
    let (a, b, d) = (low, only(0), only(1));
    let both = |i: &Interval, j: &Interval| Interval::both(i.clone(), j.clone());
    let either = |i: Interval, j: Interval| Interval::either(i, j);
    let left = Interval::both(a.clone(), either(b.clone(), d.clone()));
    is_given(&program, 59, &inside(left.clone(), either(both(&a, &b), both(&a, &d))), &[]);
    is_not_given(&program, 59, &inside(left.clone(), either(both(&a, &d), both(&a, &b))), &[]);
    is_wrong(&program, &inside(left, either(both(&a, &d), both(&a, &d))), &[]);
    // The other way round over chop: parts that have one write each are not one write together.
    let one = Interval::One(X);
    let parts = Interval::chop(both(&one, &b), both(&one, &d));
    is_wrong(&program, &inside(parts, Interval::both(one, Interval::chop(b, d))), &[]);
}

#[test]
fn rules_60_and_61_drop_a_side() {
    let program = writers();
    let (p, q) = (Assertion::sees(1, only(0)), Assertion::sees(2, Interval::One(X)));
    let pair = Assertion::both(p.clone(), q.clone());
    is_given(&program, 60, &gives(pair.clone(), p.clone()), &[]);
    is_given(&program, 61, &gives(pair.clone(), q.clone()), &[]);
    is_not_given(&program, 60, &gives(pair.clone(), q.clone()), &[]);
    is_not_given(&program, 61, &gives(pair.clone(), p.clone()), &[]);
    let seen = Assertion::sees(3, Interval::chop(only(0), only(1)));
    is_wrong(&program, &gives(seen.clone(), Assertion::both(seen.clone(), p)), &[]);
    let either = Assertion::either(seen.clone(), q);
    is_wrong(&program, &gives(either, seen), &[]);
}

/// Eleven leaves: by rule 20 nothing follows, and rules 60 and 61 do not count them.
#[test]
fn rules_60_and_61_count_no_leaves() {
    let program = writers();
    let leaf = |n: u8| Assertion::sees(n / 8 + 1, all(n % 8));
    let many = (0..11).map(leaf).reduce(Assertion::both).expect("a leaf");
    let (front, last) = match &many {
        Assertion::Both(a, b) => (a.clone(), b.clone()),
        _ => unreachable!("both"),
    };
    let line = |right| Statement::Implication { left: many.clone().into(), right };
    assert!(!follows(&program, 20, &line(last.clone()), &[]));
    is_given(&program, 60, &line(front), &[]);
    is_given(&program, 61, &line(last), &[]);
}

/// An image in memory whose step goes by rule 54: the checker refuses its bytes at the line, and the mode that knows
/// further rules accepts it and names the rule. All else is judged as ever.
#[test]
fn the_mode_judges_what_no_verdict_knows() {
    let mut program = program([0, 0], vec![vec![store(X, 2)]]);
    let (before, after) = (Assertion::sees(1, only(0)), Interval::chop(all(0), only(2)));
    let after = Assertion::sees(1, after);
    program.outline = vec![vec![before.clone().into(), after.clone().into()]];
    let start = implies(26, Assertion::Start, before.clone(), &[]);
    let line = triple(54, (1, 0), before.clone(), after, &[]);
    let mut plan = Plan::new(program, vec![Some(start.clone()), Some(line)]);
    assert_eq!(check(&plan.bytes()).code, 6);
    let judgement = mode::judge(&plan.bytes());
    assert!(judgement.accepted && judgement.fields.count == 2, "{judgement:?}");
    assert_eq!(judgement.used, [54]);
    plan.obligations[1] = None;
    assert_eq!(mode::judge(&plan.bytes()).fields.code, 20);
    plan.obligations[1] = Some(start);
    assert_eq!(mode::judge(&plan.bytes()).fields.code, 21);
    let other = Assertion::sees(1, Interval::chop(all(1), only(2)));
    plan.program.outline[0][1] = other.clone().into();
    plan.obligations[1] = Some(triple(54, (1, 0), before, other, &[]));
    let judgement = mode::judge(&plan.bytes());
    assert!(!judgement.accepted && judgement.fields.code == 22, "{judgement:?}");
    assert_eq!(mode::judge(&[]).fields.code, 2);
}
