//! Handovers worked out by hand.
use super::{check_handover, permitted, replay_handover, Across, Handover, Traces};
use crate::assemble::Plan;
use crate::checker::check;
use crate::explore::{across, Bounds};
use crate::formula::parse::Counts;
use crate::formula::replace::{Replace, Replacement};
use crate::formula::{Assertion, Interval, Test, Value};
use crate::image::written::Written;
use crate::image::{Header, Instruction, Program};
use crate::machine::{State, Step};
use crate::proof::{around, implies, included, triple, Lemma};
use std::rc::Rc;

type A = Rc<Assertion>;

/// Register 1 is this.
fn is(value: u8) -> A {
    let test = Test::equal(Value::Register(1), Value::Constant(value));
    Assertion::holds(test).into()
}

/// Register 1 is this at most.
fn up_to(value: u8) -> A {
    let above = Test::less(Value::Constant(value), Value::Register(1));
    Assertion::holds(Test::negated(above)).into()
}

fn truth() -> A {
    Assertion::truth().into()
}

fn header() -> Header {
    let counts = Counts { threads: 2, words: 1, registers: 2, range: 8 };
    Header { counts, start: vec![3], owners: vec![1, 2], marks: vec![1, 0] }
}

/// From start to the first assertion: rule 27 and then rows.
fn from_start(first: &A) -> Lemma {
    let zero = implies(27, Assertion::Start, is(0), &[]);
    let weaker = implies(21, is(0), first.clone(), &[]);
    implies(20, Assertion::Start, first.clone(), &[&zero, &weaker])
}

/// `r1 := value` at a point of thread 1, from one assertion about the register to another.
fn assigned(point: u8, (left, right): (&A, &A), value: u8) -> Lemma {
    let by = Rc::new(Value::Constant(value));
    let before = right.replace(&[Replacement { leaf: Value::Register(1), by }]);
    let step = triple(2, (1, point), before.clone(), right.clone(), &[]);
    let known = implies(21, Assertion::truth(), before.clone(), &[]);
    let first = implies(20, left.clone(), before, &[&known]);
    around(&first, &step, &implies(20, right.clone(), right.clone(), &[]))
}

/// Thread 1 assigns these values to register 1, with these assertions; thread 2 does nothing. The spare lines come first.
fn image(header: Header, values: &[u8], outline: &[A], spare: Vec<Lemma>) -> Vec<u8> {
    let code = values.iter().map(|&value| Instruction::assign(1, Value::Constant(value)));
    let program = Program {
        header,
        threads: vec![code.collect(), Vec::new()],
        outline: vec![outline.to_vec(), vec![truth()]],
    };
    let mut obligations =
        vec![from_start(&outline[0]), implies(20, Assertion::Start, truth(), &[])];
    for (point, &value) in values.iter().enumerate() {
        obligations.push(assigned(point as u8, (&outline[point], &outline[point + 1]), value));
    }
    for (point, assertion) in outline.iter().enumerate().take(values.len()) {
        let kept = triple(2, (1, point as u8), truth(), truth(), &[]);
        let both = Assertion::both(truth(), assertion.clone());
        let first = implies(20, both, truth(), &[]);
        obligations.push(around(&first, &kept, &implies(20, truth(), truth(), &[])));
    }
    let mut plan = Plan::new(program, obligations.into_iter().map(Some).collect());
    plan.spare = spare;
    plan.bytes()
}

/// Register 1 becomes 2, then 5.
fn old() -> Vec<u8> {
    image(header(), &[2, 5], &[is(0), is(2), is(5)], Vec::new())
}

/// Register 1, which is at most 5, becomes 7. Lines 1 to 3 hand over from each old point of thread 1, line 4 from that of
/// thread 2; 5 to 8 do not serve.
fn new() -> Vec<u8> {
    image(header(), &[7], &[up_to(5), is(7)], handing_over())
}

fn handing_over() -> Vec<Lemma> {
    let later = |value| implies(21, is(value), up_to(5), &[]);
    let seen = Interval::all(Test::truth());
    vec![
        later(0),
        later(2),
        later(5),
        implies(20, truth(), truth(), &[]),
        implies(21, up_to(5), is(5), &[]), // sides exchanged, and false
        triple(2, (1, 0), is(5), up_to(5), &[]), // no implication
        included(46, seen.clone(), seen, &[]),
        implies(20, is(5), up_to(5), &[]), // no truth table shows it
    ]
}

/// Old points 0 to 2 of thread 1 go on at point 0, point 0 of thread 2 stays.
const TABLE: [u8; 12] = [0, 1, 0, 0, 2, 0, 0, 3, 0, 0, 4, 0];

/// The code with one byte of the table changed.
fn with(place: usize, byte: u8) -> u16 {
    let mut table = TABLE;
    table[place] = byte;
    check_handover(&old(), &new(), &table)
}

#[test]
fn permitted_by_lines_of_the_new_image() {
    let handover = permitted(&old(), &new(), &TABLE).expect("permitted");
    assert_eq!(handover.points, [vec![0, 0, 0], vec![0]]);
    assert_eq!(handover.old.threads[0].len(), 2);
    assert_eq!(handover.new.threads[0].len(), 1);
    assert_eq!(check_handover(&old(), &new(), &TABLE), 0);
}

#[test]
fn the_table_has_an_entry_for_each_old_point() {
    for length in (0..TABLE.len()).chain([13, 15, 300]) {
        let mut table = TABLE.to_vec();
        table.resize(length, 0);
        assert_eq!(check_handover(&old(), &new(), &table), 33, "{length} bytes");
    }
    // The new image has fewer points.
    assert_eq!(check_handover(&old(), &new(), &TABLE[..9]), 33);
}

#[test]
fn out_of_range() {
    assert_eq!(with(0, 2), 33); // thread 1 has the new points 0 and 1
    assert_eq!(with(0, 255), 33);
    assert_eq!(with(9, 1), 33); // thread 2 has point 0 alone
    assert_eq!(with(1, 0), 33); // line 0
    assert_eq!(with(10, 0), 33);
    let lines = Written::read(&new()).expect("in order").lines.len() as u8;
    assert_eq!(with(1, lines), 34);
    assert_eq!(with(1, lines + 1), 33);
    assert_eq!(with(11, 1), 33); // line 260
}

#[test]
fn lines_that_do_not_serve() {
    assert_eq!(with(0, 1), 34); // the line is about another new point
    assert_eq!(with(1, 2), 34); // about another old point
    assert_eq!(with(10, 1), 34);
    for line in 5..=8 {
        assert_eq!(with(7, line), 34, "line {line}");
    }
}

#[test]
fn any_33_comes_before_a_34() {
    let mut table = TABLE;
    table[1] = 8;
    assert_eq!(check_handover(&old(), &new(), &table), 34);
    table[10] = 0;
    assert_eq!(check_handover(&old(), &new(), &table), 33);
    assert_eq!(check_handover(&old(), &new(), &table[..11]), 33);
}

#[test]
fn both_are_accepted() {
    let mut refused = Written::read(&new()).expect("in order");
    refused.obligations[0] = 0;
    assert_eq!(check_handover(&old(), &refused.bytes(), &TABLE), 32);
    assert_eq!(check_handover(&refused.bytes(), &new(), &TABLE), 32);
    assert_eq!(check_handover(&[], &new(), &TABLE), 32);
    assert_eq!(check_handover(&old(), &[], &[]), 32); // before 33
}

/// Each field of the header, with both images in order.
#[test]
fn unlike_images() {
    let counts = header().counts;
    let unlike = [
        Header { counts: Counts { words: 2, ..counts }, start: vec![3, 0], ..header() },
        Header {
            counts: Counts { registers: 3, ..counts },
            owners: vec![1, 2, 1],
            marks: vec![1, 0, 1],
            ..header()
        },
        Header { counts: Counts { range: 9, ..counts }, ..header() },
        Header { start: vec![4], ..header() },
        Header { owners: vec![1, 1], ..header() },
        Header { marks: vec![1, 1], ..header() },
    ];
    for other in unlike {
        let old = image(other.clone(), &[2, 5], &[is(0), is(2), is(5)], Vec::new());
        assert_eq!(check_handover(&old, &new(), &TABLE), 32, "{other:?}");
        let new = image(other, &[7], &[up_to(5), is(7)], handing_over());
        assert_eq!(check_handover(&old, &new, &TABLE), 0);
        assert_eq!(check_handover(&self::old(), &new, &TABLE[..11]), 32); // before 33
    }
    // Three threads: the third has no points in the table of two.
    let mut three = Written::read(&new()).expect("in order");
    three.header.counts.threads = 3;
    three.threads.push(Vec::new());
    three.outline.push(three.outline[2]);
    three.obligations.insert(2, three.obligations[1]);
    three.obligations.push(three.obligations[4]);
    assert_eq!(check(&three.bytes()).code, 0);
    assert_eq!(check_handover(&old(), &three.bytes(), &TABLE), 32);
}

#[test]
fn equal_bytes_serve_whatever_their_numbers() {
    let mut new = Written::read(&new()).expect("in order");
    // The assertion of point 0 written again; the lines still name the first record.
    let again = new.formulas[usize::from(new.outline[0]) - 1].clone();
    new.formulas.push(again);
    let twin = new.formulas.len() as u16;
    for line in &mut new.lines[..3] {
        line.right = twin;
    }
    assert_eq!(check_handover(&old(), &new.bytes(), &TABLE), 0);
    // The same in other words, twice negated, does not serve.
    let negated = [&[28, 11, 11][..], &new.formulas[usize::from(twin) - 1][1..]].concat();
    new.formulas.push(negated);
    new.lines[1].right = twin + 1;
    assert_eq!(check_handover(&old(), &new.bytes(), &TABLE), 34);
}

#[test]
fn points_are_mapped_and_all_else_stays() {
    let handover = Handover {
        points: vec![vec![1, 0, 1], vec![0]],
        ..permitted(&old(), &new(), &TABLE).expect("permitted")
    };
    let state = State { points: vec![2, 0], registers: vec![5, 6], ..State::start(&header()) };
    let mapped = handover.mapped(&state);
    assert_eq!(mapped, State { points: vec![1, 0], ..state });
}

#[test]
fn runs_across() {
    let bounds = Bounds { steps: 8, writes: 4, starts: 100, states: 1000 };
    let permitted = permitted(&old(), &new(), &TABLE).expect("permitted");
    let found = across(&permitted, bounds);
    assert_eq!((found.states, found.all, found.broken), ((24, 32), true, None));
    let few = across(&permitted, Bounds { states: 10, ..bounds });
    assert!(!few.all && few.broken.is_none());
    // From old point 1 to the new last point: there register 1 should be 7.
    let wrong = Handover { points: vec![vec![0, 1, 0], vec![0]], ..permitted };
    let broken = across(&wrong, bounds).broken.expect("false");
    assert_eq!(broken.first, [Step { thread: 1, position: 0 }]);
    assert_eq!((broken.second, broken.thread), (vec![], 1));
}

const BEFORE: u8 = 0xA5;

/// What a replay across a handover leaves: code, numbers of the answer, bytes of the table that changed.
fn replayed(
    points: &[u8],
    [first, second, given]: [&[u8]; 3],
    entries: usize,
) -> (u16, Vec<usize>, Vec<u8>) {
    let (old, new) = (old(), new());
    let traces = Traces { first, second, given };
    let (mut table, mut answer) = (vec![BEFORE; 11 * entries + 3], vec![99; 22]);
    let code =
        replay_handover(&Across { old: &old, new: &new, points, traces }, &mut table, &mut answer);
    assert_eq!(answer[21], 99, "behind the answer");
    assert!(answer[3..5] == [0, 0] && answer[7..21].iter().all(|&number| number == 0));
    let used = table.iter().take_while(|&&byte| byte != BEFORE).count();
    assert!(table[used..].iter().all(|&byte| byte == BEFORE));
    // Steps, the points of both threads, both registers.
    let told = [0, 1, 2, 5, 6].map(|place| answer[place]);
    (code, told.to_vec(), table[..used].to_vec())
}

/// The one write of the word: value 3, neither releasing nor covered.
const ROW: [u8; 11] = [3, 0, 0, 0, 0, 0, 0, 0, 0, 0, 0];

#[test]
fn replay_goes_on_under_the_new_code() {
    let replay = |first: &[u8], second: &[u8]| {
        let (code, told, table) = replayed(&TABLE, [first, second, &[9, 12]], 64);
        assert_eq!(table, ROW);
        (code, told)
    };
    // Register 2 is open: 12 modulo 8. Register 1 starts at 0, whatever is given.
    assert_eq!(replay(&[], &[]), (0, vec![0, 0, 0, 0, 4]));
    assert_eq!(replay(&[1, 0, 1, 0], &[]), (0, vec![2, 0, 0, 5, 4]));
    assert_eq!(replay(&[1, 0], &[1, 0]), (0, vec![2, 1, 0, 7, 4]));
    assert_eq!(replay(&[], &[1, 0]), (0, vec![1, 1, 0, 7, 4]));
    // Under the new code the last point is 1, so a second step is refused there; the steps of both count.
    assert_eq!(replay(&[1, 0], &[1, 0, 1, 0]), (27, vec![2, 1, 0, 7, 4]));
    assert_eq!(replay(&[1, 0, 1, 0], &[1, 1]), (28, vec![2, 0, 0, 5, 4]));
    assert_eq!(replay(&[1, 0], &[1, 0, 1]), (27, vec![2, 1, 0, 7, 4]));
}

#[test]
fn a_step_refused_in_the_first_trace_ends_the_run_under_the_old_code() {
    let replay = |first: &[u8]| replayed(&TABLE, [first, &[1, 0], &[]], 64);
    let ended = |code, told: [usize; 5]| (code, told.to_vec(), ROW.to_vec());
    // The third step is past the old code's last point, which is not mapped then.
    assert_eq!(replay(&[1, 0, 1, 0, 1, 0]), ended(27, [2, 2, 0, 5, 0]));
    assert_eq!(replay(&[1, 0, 1, 7]), ended(28, [1, 1, 0, 2, 0]));
    assert_eq!(replay(&[2, 0]), ended(27, [0, 0, 0, 0, 0]));
    assert_eq!(replay(&[1, 0, 1]), ended(27, [1, 1, 0, 2, 0]));
}

#[test]
fn a_handover_that_is_not_permitted_runs_nothing() {
    let nothing = |code| (code, vec![0; 5], Vec::new());
    let mut other = TABLE;
    other[1] = 8;
    assert_eq!(replayed(&other, [&[1, 0], &[1, 0], &[0, 5]], 64), nothing(34));
    assert_eq!(replayed(&TABLE[..11], [&[9], &[], &[]], 0), nothing(33)); // before 27 and 29
    let (old, traces) = (old(), Traces { first: &[], second: &[], given: &[] });
    let (mut table, mut answer) = ([BEFORE; 22], [99; 21]);
    let unlike = Across { old: &old, new: &[], points: &TABLE, traces };
    assert_eq!(replay_handover(&unlike, &mut table, &mut answer), 32);
    assert_eq!((table, answer), ([BEFORE; 22], [0; 21]));
}

#[test]
fn room() {
    // The start write does not fit: points and registers are as at the start, under the old code.
    assert_eq!(replayed(&TABLE, [&[1, 0], &[], &[0, 5]], 0), (29, vec![0, 0, 0, 0, 5], Vec::new()));
    assert_eq!(replayed(&TABLE, [&[1, 0], &[], &[]], 1), (0, vec![1, 0, 0, 2, 0], ROW.to_vec()));
    let (old, new) = (old(), new());
    let traces = Traces { first: &[1, 0], second: &[], given: &[] };
    let call = Across { old: &old, new: &new, points: &[], traces };
    let (mut table, mut answer) = ([BEFORE; 11], [99; 20]);
    assert_eq!(replay_handover(&call, &mut table, &mut answer), 1); // before 33
    assert_eq!((table, answer), ([BEFORE; 11], [99; 20]));
}
