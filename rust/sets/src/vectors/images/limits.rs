//! As many threads, points, lines and bytes as there may be, and one more of each.

use super::Case;
use crate::examples::largest;
use crate::generate::harness;
use reference::assemble::Plan;
use reference::checker::frames::{FORMULA, HEADER, LINE, OBLIGATIONS, OUTLINE, THREAD};
use reference::checker::limits::{LINES, POINTS, THREADS};
use reference::checker::obligations::duties;
use reference::formula::parse::Counts;
use reference::formula::{Test, Value};
use reference::image::written::{image_bytes, Record};
use reference::image::{Access, Header, Instruction, Thread};
use std::rc::Rc;

pub fn cases() -> Vec<Case> {
    [obligations(), threads(), places(), lines(), bytes()].concat()
}

/// Stores, and at some point a branch to the last point.
fn thread(branch: Option<u8>) -> Thread {
    let store = Access::Store { word: 1, value: Value::Constant(1).into(), releasing: true }.into();
    let mut code = vec![store; usize::from(POINTS) - 1];
    if let Some(point) = branch {
        let test = Rc::new(Test::equal(Value::Constant(0), Value::Constant(1)));
        code[usize::from(point)] = Instruction::Branch { test, target: POINTS - 1 };
    }
    code
}

/// Four threads of 16 points, all assertions true, and every obligation met. The last register is the last thread's.
fn plan() -> Plan {
    let counts = Counts { threads: THREADS, words: 1, registers: 2, range: 8 };
    let header = Header::cleared(counts, vec![0], vec![1, THREADS]);
    let branches = [None, Some(0), None, Some(POINTS - 2)];
    harness::plan(harness::program(header, branches.map(thread).to_vec()))
}

/// Each class at its first and last obligations, and some between.
fn obligations() -> Vec<Case> {
    let plan = plan();
    let duties = duties(&plan.program.threads);
    let mut cases = vec![Case::new("accepted: 4 threads of 16 points", plan.bytes())];
    let last = duties.len() - 1;
    for index in [0, 3, 4, 18, 19, 20, 65, 66, 255, 256, 1023, 1024, 2048, last - 1, last] {
        let mut changed = plan.clone();
        changed.obligations[index] = None;
        let label = format!("20: 4 threads of 16 points, {:?}", duties[index]);
        cases.push(Case::new(label, changed.bytes()));
    }
    cases
}

/// The records of the plan with one changed.
fn changed(kind: u16, n: usize, change: impl Fn(&mut Vec<u8>)) -> Vec<Record> {
    let mut records = plan().records();
    let index = (0..records.len()).filter(|&at| records[at].kind == kind).nth(n);
    change(&mut records[index.expect("such a record")].body);
    records
}

fn case(label: &str, records: &[Record]) -> Case {
    Case::new(label, image_bytes(records))
}

/// A fifth thread, a 17th point.
fn threads() -> Vec<Case> {
    let mut fifth = plan().records();
    let last = fifth.iter().rposition(|record| record.kind == THREAD).expect("threads");
    fifth.insert(last + 1, Record::new(THREAD, [1]));
    let mut announced = fifth.clone();
    announced[0].body[0] = THREADS + 1;
    let header = |place: usize, byte: u8| changed(HEADER, 0, |body| body[place] = byte);
    let longer = |n| {
        changed(THREAD, n, |body| {
            let again = body[1..6].to_vec();
            body[0] += 1;
            body.extend(again);
        })
    };
    vec![
        case("4: a fifth thread", &fifth),
        case("4: a fifth thread, and the header has 5", &announced),
        case("6: the header has 5 threads, 4 records", &header(0, THREADS + 1)),
        case("6: owner 5 of 4 threads", &header(6, THREADS + 1)),
        case("6: 17 points of thread 1", &longer(0)),
        case("6: 17 points of thread 4", &longer(3)),
        case("5: an outline of 65 points", &changed(OUTLINE, 0, |body| body.extend([1, 0]))),
    ]
}

/// Points and threads that lines, branches and formulas name.
fn places() -> Vec<Case> {
    let triple = plan()
        .records()
        .iter()
        .filter(|record| record.kind == LINE)
        .position(|line| line.body[0] == 1);
    let n = triple.expect("a triple");
    let place = |thread: u8, point: u8| {
        changed(LINE, n, |body| body[1..3].copy_from_slice(&[thread, point]))
    };
    let target = |point: u8| changed(THREAD, 1, |body| body[2] = point);
    let seeing = |thread: u8| {
        let mut records = plan().records();
        let last = records.iter().rposition(|record| record.kind == FORMULA).expect("formulas");
        records.insert(last + 1, Record::new(FORMULA, [24, thread, 17, 1]));
        records
    };
    vec![
        case("place of a line: thread 4, point 13", &place(THREADS, POINTS - 3)),
        case("6: a triple for the branch of thread 4", &place(THREADS, POINTS - 2)),
        case("6: a triple for the last point of thread 4", &place(THREADS, POINTS - 1)),
        case("6: a triple for thread 5", &place(THREADS + 1, 0)),
        case("a branch to point 15", &target(POINTS - 1)),
        case("6: a branch to point 16", &target(POINTS)),
        case("accepted: what thread 4 sees", &seeing(THREADS)),
        case("6: what thread 5 sees", &seeing(THREADS + 1)),
    ]
}

/// The plan with its last line again and again, up to so many lines; the last obligation names a line.
fn with_lines(count: usize, last: u16) -> Vec<u8> {
    let mut records = plan().records();
    let end = records.len() - 1;
    let again = records[end - 1].clone();
    let present = records.iter().filter(|record| record.kind == LINE).count();
    records.splice(end..end, vec![again; count - present]);
    let obligations = &mut records.last_mut().expect("obligations").body;
    let place = obligations.len() - 2;
    obligations[place..].copy_from_slice(&last.to_le_bytes());
    image_bytes(&records)
}

fn lines() -> Vec<Case> {
    let most = LINES as u16;
    let rests_on = |premise: u16| {
        let mut records = changed(OBLIGATIONS, 0, |_| {});
        let end = records.len() - 1;
        let again = records[end - 1].clone();
        let present = records.iter().filter(|record| record.kind == LINE).count();
        records.splice(end..end, vec![again; LINES - present]);
        let line = &mut records[end + LINES - present - 1].body;
        assert_eq!(line[7], 3, "the last obligation rests on a line by rule 16");
        line[10..12].copy_from_slice(&premise.to_le_bytes());
        image_bytes(&records)
    };
    vec![
        Case::new(
            "accepted: 4,000 lines, the last obligation has the last",
            with_lines(LINES, most),
        ),
        Case::new(
            "accepted: 1,001 lines, the last obligation has the last",
            with_lines(1001, 1001),
        ),
        Case::new(
            "6: 4,000 lines, the last obligation has line 4,001",
            with_lines(LINES, most + 1),
        ),
        Case::new("4: 4,001 lines", with_lines(LINES + 1, most)),
        Case::new("harmless: line 4,000 rests on line 3,999", rests_on(most - 1)),
        Case::new("6: line 4,000 rests on itself", rests_on(most)),
    ]
}

/// Images with far more than 65,535 bytes, and faults at their ends.
fn bytes() -> Vec<Case> {
    let sound = largest();
    let with_last_number = |number: u16| {
        let mut image = sound.clone();
        let place = image.len() - 2;
        image[place..].copy_from_slice(&number.to_le_bytes());
        image
    };
    let too_long_formulas = |rest: usize| {
        let formula = |bytes: usize| Record::new(FORMULA, vec![8; bytes - 4]);
        let small = super::SMALL;
        let full = 262_144 - small.len() - rest;
        let records = [vec![formula(full / 4); 3], vec![formula(full - 3 * (full / 4))]].concat();
        [&small[..9], &image_bytes(&records), &small[9..]].concat()
    };
    vec![
        Case::new("accepted: the largest image", sound.clone()),
        Case::new("20: the largest image, the last obligation has no line", with_last_number(0)),
        Case::new(
            "6: the largest image, the last obligation has line 4,001",
            with_last_number(4001),
        ),
        Case::new("3: the largest image and a byte", [&sound[..], &[0]].concat()),
        Case::new("5: 262,144 bytes, formulas too long", too_long_formulas(0)),
    ]
}
