//! Traces to be replayed: each clause of the machine, steps refused at each place by each code, tables of 0 to 65
//! entries, registers given, answers of several lengths.

mod machine;

use super::images::SMALL;
use super::refused::by_code;
use crate::examples::{message_passing, two_writes};
use crate::generate::harness;
use crate::generate::random::Random;
use crate::generate::traces::{self, permitted, repeating, Call};
use reference::checker::accepted;
use reference::formula::parse::Counts;
use reference::image::{Access, Header, Thread};
use reference::replay::{ANSWER, MOST_WRITES, WRITE_BYTES};

/// An image, and what a call is given besides it.
#[derive(Clone, Debug, PartialEq, Eq)]
pub struct ReplayCase {
    pub label: String,
    pub image: Vec<u8>,
    pub call: Call,
}

/// Generated images that are longer are left out.
const LONGEST: usize = 1500;
/// So many of them are taken.
const GENERATED: usize = 60;

/// All cases of the set.
pub fn cases() -> Vec<ReplayCase> {
    let parts = [
        passing(),
        machine::cases(),
        refused_steps(),
        tables(),
        long(),
        given(),
        answers(),
        refused(),
        generated(),
    ];
    parts.concat()
}

/// A table of 64 entries, no register given, and room for the answer and no more.
fn case(label: impl Into<String>, image: &[u8], trace: &[u8]) -> ReplayCase {
    let table = MOST_WRITES * WRITE_BYTES;
    let call = Call { trace: trace.to_vec(), given: Vec::new(), table, numbers: ANSWER };
    ReplayCase { label: label.into(), image: image.to_vec(), call }
}

/// The case with a table of so many bytes.
fn with_table(case: ReplayCase, table: usize) -> ReplayCase {
    ReplayCase { call: Call { table, ..case.call }, ..case }
}

/// The image of a program that is accepted whatever it does.
fn image_of(header: &Header, threads: Vec<Thread>) -> Vec<u8> {
    harness::plan(harness::program(header.clone(), threads)).bytes()
}

/// Message passing: the reader polls, reads the flag and then the data. One writer, and a reader that loads twice.
const PASSED: [u8; 14] = [2, 0, 2, 0, 1, 0, 1, 0, 2, 1, 2, 0, 2, 1];

fn passing() -> Vec<ReplayCase> {
    let (passing, writes) = (message_passing().bytes(), two_writes().bytes());
    let mut cases = Vec::new();
    for steps in 0..=PASSED.len() / 2 {
        let label = format!("message passing: {steps} steps");
        cases.push(case(label, &passing, &PASSED[..2 * steps]));
    }
    let stale = [1, 0, 1, 0, 2, 1, 2, 0, 2, 0];
    cases.push(case("28: message passing, the data from before", &passing, &stale));
    for (name, trace) in [
        ("first and second", [1, 0, 2, 1, 1, 1, 2, 2]),
        ("start and second", [1, 0, 1, 1, 2, 0, 2, 2]),
        ("28: second and first", [1, 0, 1, 1, 2, 2, 2, 1]),
        ("28: the second write behind the start", [1, 0, 1, 0, 2, 0, 2, 0]),
    ] {
        cases.push(case(format!("{name}: two writes"), &writes, &trace));
    }
    cases
}

/// A step refused behind each number of steps, for each reason; bytes behind it are not looked at.
fn refused_steps() -> Vec<ReplayCase> {
    let image = message_passing().bytes();
    let mut cases = Vec::new();
    for steps in 0..=PASSED.len() / 2 {
        for (label, step) in [
            ("27: thread 0", &[0, 0, 1, 0][..]),
            ("27: thread 3", &[3, 0, 2, 0]),
            ("27: half a step", &[1]),
            ("position 200", &[1, 200, 1, 0]),
        ] {
            let trace = [&PASSED[..2 * steps], step].concat();
            cases.push(case(format!("{label}, behind {steps} steps"), &image, &trace));
        }
    }
    for position in [1, 64, 128, 192, 254, 255] {
        let label = format!("28: a store behind position {position}");
        cases.push(case(label, &image, &[1, position]));
        let label = format!("28: a load of position {position}");
        cases.push(case(label, &image, &[2, 0, 2, 0, 2, position, 1, 0]));
    }
    // The table holds no more than the start writes.
    for (label, trace) in [
        ("29: a store", &[1, 0][..]),
        ("28 before 29: a store at a position", &[1, 1]),
        ("27 before 29: half a step of a store", &[1]),
        ("29: a store behind loads and a branch", &[2, 0, 2, 0, 2, 0, 1, 0, 2, 0]),
    ] {
        cases.push(with_table(case(label, &image, trace), 2 * WRITE_BYTES));
    }
    let label = "27 before 28: at its last point";
    cases.push(case(label, &image, &[1, 0, 1, 0, 1, 9]));
    cases
}

/// Two words, two threads that write the first of them again and again: one by stores, one by fetch-adds.
fn endless() -> Vec<u8> {
    let counts = Counts { threads: 2, words: 2, registers: 1, range: 8 };
    let header = Header::cleared(counts, vec![3, 5], vec![2]);
    image_of(&header, vec![repeating(1, None), repeating(1, Some(1))])
}

/// Every number of entries from none to one more than is used, by each way to write, with a ragged tail or none.
fn tables() -> Vec<ReplayCase> {
    let image = endless();
    let mut cases = Vec::new();
    for entries in 0..=MOST_WRITES + 1 {
        let thread = 1 + entries as u8 % 2;
        let trace: Vec<u8> = (0..70).flat_map(|at| [thread, at, thread, 0]).collect();
        let tail = (entries * 7) % WRITE_BYTES;
        let label = format!("29: {entries} entries and {tail} bytes");
        cases.push(with_table(case(label, &image, &trace), entries * WRITE_BYTES + tail));
    }
    // Just as many writes as there is room for, one less, and an empty trace.
    for (entries, writes) in [(2, 2), (2, 1), (3, 1), (64, 62), (65, 62), (64, 61), (10, 0), (1, 0)]
    {
        let trace: Vec<u8> = (0..writes).flat_map(|at| [1, at, 1, 0]).collect();
        let label = format!("{writes} stores, {entries} entries");
        cases.push(with_table(case(label, &image, &trace), entries * WRITE_BYTES));
    }
    // Stores behind the start write, each before all others: the other thread's positions move.
    let trace = [2, 0, 2, 0, 1, 0, 1, 0, 2, 2, 2, 0, 1, 1, 1, 0, 2, 4];
    cases.push(case("stores between fetch-adds", &image, &trace));
    cases
}

/// More steps than 16 bits count, of a thread that polls.
fn long() -> Vec<ReplayCase> {
    let counts = Counts { threads: 1, words: 1, registers: 1, range: 8 };
    let header = Header::cleared(counts, vec![6], vec![1]);
    let mut code = repeating(1, None);
    code[0] = Access::Load { register: 1, word: 1, acquiring: true }.into();
    let image = image_of(&header, vec![code]);
    vec![case("65,537 steps", &image, &[1, 0].repeat(65_537))]
}

/// Registers of which all are open, or every third, with 0 to 20 bytes given.
fn given() -> Vec<ReplayCase> {
    let mut cases = Vec::new();
    for (range, every) in [(8, 1), (16, 3), (2, 1), (5, 3)] {
        let counts = Counts { threads: 1, words: 1, registers: 16, range };
        let marks = (0..16).map(|register| u8::from(register % every != 0)).collect();
        let header = Header { counts, start: vec![0], owners: vec![1; 16], marks };
        let image = image_of(&header, vec![Vec::new()]);
        let lengths: &[u8] = if range == 8 { &[0, 1, 2, 15, 16, 17, 20] } else { &[0, 7, 16, 19] };
        for &length in lengths {
            let given: Vec<u8> = (0..length).map(|index| 255 - 13 * index).collect();
            let label = format!("range {range}, every {every} open, {length} given");
            let case = case(label, &image, &[]);
            cases.push(ReplayCase { call: Call { given, ..case.call }, ..case });
        }
    }
    cases
}

/// Answers that are too short, just long enough and longer; too short comes before all else.
fn answers() -> Vec<ReplayCase> {
    let mut cases = Vec::new();
    for numbers in [0, 1, 5, 20, 21, 22, 30] {
        for (name, image, table) in [
            ("accepted", &SMALL[..], 2 * WRITE_BYTES),
            ("no entry", &SMALL[..], 0),
            ("refused", &SMALL[..49], 2 * WRITE_BYTES),
        ] {
            let case = case(format!("{numbers} numbers, {name}"), image, &[1, 0]);
            let case = with_table(case, table);
            cases.push(ReplayCase { call: Call { numbers, ..case.call }, ..case });
        }
    }
    cases
}

/// An image of each code, with a trace, registers and room that it is not asked for.
fn refused() -> Vec<ReplayCase> {
    let of_code = |(code, image): (u16, Vec<u8>)| {
        let case = case(format!("24: verdict {code}"), &image, &[1, 0, 1]);
        let table = if code % 2 == 0 { case.call.table } else { 0 };
        ReplayCase { call: Call { table, given: vec![7; 16], ..case.call }, ..case }
    };
    by_code().into_iter().map(of_code).collect()
}

/// Programs by their seeds, with calls by their seeds.
fn generated() -> Vec<ReplayCase> {
    let images = (0..).map(|seed| (seed, traces::image(seed)));
    let short = images.filter(|(_, image)| image.len() < LONGEST);
    let cases = short.map(|(seed, image)| {
        let program = accepted(&image).map(|image| image.program);
        let call = traces::call(&mut Random::new(seed), program.as_ref());
        ReplayCase { label: format!("seed {seed}"), image, call }
    });
    cases.take(GENERATED).collect()
}

/// Two traces of an accepted image, of permitted steps and with another one behind them; none if it is not accepted.
pub fn of_image(label: &str, image: &[u8]) -> Vec<ReplayCase> {
    let Some(program) = accepted(image).map(|image| image.program) else {
        return Vec::new();
    };
    let registers = program.header.owners.len() as u8;
    let given: Vec<u8> = (0..registers).map(|register| 3 * register + 1).collect();
    let run = |seed, steps| permitted(&mut Random::new(seed), &program, &given, steps).0;
    let stray = [run(2, 12), vec![1, 63], run(2, 3)].concat();
    let traces = [("run", run(1, 40)), ("stray step", stray)];
    let with = |(name, trace): (&str, Vec<u8>)| {
        let case = case(format!("{label}: {name}"), image, &trace);
        ReplayCase { call: Call { given: given.clone(), ..case.call }, ..case }
    };
    traces.into_iter().map(with).collect()
}
