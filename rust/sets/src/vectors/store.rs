//! The files of a set: a container of images and verdicts, as `reference::stored` reads it, and a text index.

use super::bills::BillCase;
use super::formulas::FormulaCase;
use super::handovers::{CrossingCase, HandoverCase};
use super::replays::ReplayCase;
use super::service::TurnCase;
use super::trims::TrimCase;
use super::Case;
use crate::generate::handovers::Crossing;
use crate::generate::traces::Call;
use reference::bill::{bill_into, Tariff, ANSWER};
use reference::checker::{accepted, check};
use reference::formula::parse::Counts;
use reference::handover::{check_handover, permitted, replayed_across, Traces};
use reference::replay::{self, replayed, Replay, ANSWER_TOO_SHORT, WRITE_BYTES};
use reference::service::SERVICE;
use reference::stored::answer;
use reference::stored::service::PARTS;
use reference::trim::trim_into;
use std::fmt::Write as _;
use std::io::Result;
use std::path::Path;

/// Appends a length of 32 bits.
fn push_length(bytes: &mut Vec<u8>, length: usize) {
    let length = u32::try_from(length).expect("a stored length has 32 bits");
    bytes.extend(length.to_le_bytes());
}

/// Appends how many bytes there are, and these.
fn push_counted(bytes: &mut Vec<u8>, content: &[u8]) {
    push_length(bytes, content.len());
    bytes.extend(content);
}

/// The container of a set of images.
pub fn container(cases: &[Case]) -> Vec<u8> {
    let mut bytes = Vec::new();
    for case in cases {
        push_counted(&mut bytes, &case.image);
        bytes.extend(check(&case.image).fields().iter().flat_map(|field| field.to_le_bytes()));
    }
    bytes
}

/// The index of a set of images: number, label and nine fields of each case.
pub fn index(cases: &[Case]) -> String {
    let mut text = String::new();
    for (number, case) in (1..).zip(cases) {
        let _ = writeln!(text, "{number}\t{}\t{}", case.label, check(&case.image));
    }
    text
}

/// The cases whose length a formula record may have; another length is code 5 there.
fn of_record_length(cases: &[FormulaCase]) -> impl Iterator<Item = &FormulaCase> {
    cases.iter().filter(|case| (1..=255).contains(&case.formula.len()))
}

/// The container of bare formulas.
pub fn formula_container(cases: &[FormulaCase]) -> Vec<u8> {
    let mut bytes = Vec::new();
    for case in of_record_length(cases) {
        bytes.extend((case.formula.len() as u32).to_le_bytes());
        bytes.extend(&case.formula);
        let Counts { threads, words, registers, range } = case.counts;
        bytes.extend([threads, words, registers, range]);
        bytes.extend(
            answer(&case.formula, case.counts).iter().flat_map(|number| number.to_le_bytes()),
        );
    }
    bytes
}

/// The index of bare formulas: number, label, result and sort.
pub fn formula_index(cases: &[FormulaCase]) -> String {
    let mut text = String::new();
    for (number, case) in (1..).zip(of_record_length(cases)) {
        let [result, sort] = answer(&case.formula, case.counts);
        let _ = writeln!(text, "{number}\t{}\t{result} {sort}", case.label);
    }
    text
}

/// The container and the index of images trimmed: number, label, bytes lent, code and length of each.
pub fn trims(cases: &[TrimCase]) -> (Vec<u8>, String) {
    let (mut bytes, mut text) = (Vec::new(), String::new());
    for (number, case) in (1..).zip(cases) {
        let mut out = vec![0; case.room];
        let answer = trim_into(&case.image, &mut out);
        push_counted(&mut bytes, &[&case.image, &out[..answer.length]].concat());
        push_length(&mut bytes, case.image.len());
        push_length(&mut bytes, case.room);
        bytes.extend(answer.code.to_le_bytes());
        let TrimCase { label, room, .. } = case;
        let _ = writeln!(text, "{number}\t{label}\t{room} {} {}", answer.code, answer.length);
    }
    (bytes, text)
}

/// The container and the index of images billed: number, label, code and answer of each.
pub fn bills(cases: &[BillCase]) -> (Vec<u8>, String) {
    let (mut bytes, mut text) = (Vec::new(), String::new());
    for (number, case) in (1..).zip(cases) {
        // Room for all six in any case: a short answer leaves them 0.
        let mut answer = vec![0; case.room.max(ANSWER)];
        let code = bill_into(&case.image, &case.tariff, case.billed, &mut answer[..case.room]);
        push_counted(&mut bytes, &case.image);
        let Tariff { start, step, taken, interference, least } = case.tariff;
        for price in [start, step, taken, interference, least] {
            bytes.extend(price.to_le_bytes());
        }
        bytes.extend(case.billed.to_le_bytes());
        push_length(&mut bytes, case.room);
        bytes.extend(code.to_le_bytes());
        bytes.extend(answer[..ANSWER].iter().flat_map(|number| number.to_le_bytes()));
        let numbers: Vec<String> = answer[..ANSWER].iter().map(u32::to_string).collect();
        let _ = writeln!(text, "{number}\t{}\t{code} {}", case.label, numbers.join(" "));
    }
    (bytes, text)
}

/// The container and the index of traces replayed: number, label, bytes and numbers lent, code and answer of each.
pub fn replays(cases: &[ReplayCase]) -> (Vec<u8>, String) {
    let (mut bytes, mut text) = (Vec::new(), String::new());
    for (number, ReplayCase { label, image, call }) in (1..).zip(cases) {
        let program = accepted(image).map(|image| image.program);
        let room = replay::room(call.table);
        let replayed = replayed(program.as_ref(), &call.trace, &call.given, room);
        let told = push_replay(&mut bytes, &[image, &call.trace, &call.given], call, &replayed);
        let _ = writeln!(text, "{number}\t{label}\t{told}");
    }
    (bytes, text)
}

/// The container and the index of replays across a handover, told as replays are.
pub fn crossings(cases: &[CrossingCase]) -> (Vec<u8>, String) {
    let (mut bytes, mut text) = (Vec::new(), String::new());
    for (number, CrossingCase { label, pair, crossing }) in (1..).zip(cases) {
        let Crossing { call, second } = crossing;
        let handover = permitted(&pair.old, &pair.new, &pair.table);
        let traces = Traces { first: &call.trace, second, given: &call.given };
        let replayed = replayed_across(handover.as_ref(), &traces, replay::room(call.table));
        let parts = [&pair.old, &pair.new, &pair.table, &call.trace, second, &call.given];
        let told = push_replay(&mut bytes, &parts, call, &replayed);
        let _ = writeln!(text, "{number}\t{label}\t{told}");
    }
    (bytes, text)
}

/// Appends what a call was given, with the entries that it writes, and its answer; says what is lent, code and answer.
fn push_replay(bytes: &mut Vec<u8>, parts: &[&Vec<u8>], call: &Call, replayed: &Replay) -> String {
    let mut table = vec![0; call.table];
    // Room for all numbers in any case: a short answer leaves them 0.
    let mut answer = vec![0; call.numbers.max(replay::ANSWER)];
    let code = replayed.put(&mut table, &mut answer[..call.numbers]);
    let entries = if code == ANSWER_TOO_SHORT { 0 } else { replayed.writes.len() };
    table.truncate(entries * WRITE_BYTES);
    let given = parts.iter().flat_map(|part| part.iter());
    push_counted(bytes, &given.chain(&table).copied().collect::<Vec<u8>>());
    for length in parts.iter().map(|part| part.len()).chain([call.table, call.numbers]) {
        push_length(bytes, length);
    }
    bytes.extend(code.to_le_bytes());
    let answer = &answer[..replay::ANSWER];
    answer.iter().for_each(|&number| push_length(bytes, number));
    let numbers: Vec<String> = answer.iter().map(usize::to_string).collect();
    format!("{} {} {code} {}", call.table, call.numbers, numbers.join(" "))
}

/// The container and the index of handovers: number, label, code of each.
pub fn handovers(cases: &[HandoverCase]) -> (Vec<u8>, String) {
    let (mut bytes, mut text) = (Vec::new(), String::new());
    for (number, HandoverCase { label, pair }) in (1..).zip(cases) {
        let code = check_handover(&pair.old, &pair.new, &pair.table);
        push_counted(&mut bytes, &[&pair.old[..], &pair.new, &pair.table].concat());
        push_length(&mut bytes, pair.old.len());
        push_length(&mut bytes, pair.new.len());
        bytes.extend(code.to_le_bytes());
        let _ = writeln!(text, "{number}\t{label}\t{code}");
    }
    (bytes, text)
}

/// The container and the index of turns at a service: number, label, code of each.
pub fn service(cases: &[TurnCase]) -> (Vec<u8>, String) {
    let (mut bytes, mut text) = (Vec::new(), String::new());
    let mut service = [0; SERVICE];
    for (number, TurnCase { label, turn }) in (1..).zip(cases) {
        let left = turn.take(&mut service);
        push_counted(&mut bytes, &turn.parts.concat());
        bytes.extend([turn.kind as u8, (SERVICE - turn.service) as u8]);
        push_length(&mut bytes, turn.caller);
        turn.parts[..PARTS - 1].iter().for_each(|part| push_length(&mut bytes, part.len()));
        push_length(&mut bytes, turn.bytes);
        push_length(&mut bytes, turn.numbers);
        let Tariff { start, step, taken, interference, least } = turn.tariff;
        for number in [start, step, taken, interference, least, left.code] {
            bytes.extend(number.to_le_bytes());
        }
        push_length(&mut bytes, left.written);
        bytes.extend(service.iter().chain(&left.numbers).flat_map(|number| number.to_le_bytes()));
        bytes.extend(left.bytes);
        let _ = writeln!(text, "{number}\t{label}\t{}", left.code);
    }
    (bytes, text)
}

/// Writes a container and its index into a folder.
pub fn write(folder: &Path, name: &str, (bytes, text): (Vec<u8>, String)) -> Result<()> {
    std::fs::write(folder.join(format!("{name}.bin")), bytes)?;
    std::fs::write(folder.join(format!("{name}.txt")), text)
}

/// Writes a set of images into a folder.
pub fn write_images(folder: &Path, name: &str, cases: &[Case]) -> Result<()> {
    write(folder, name, (container(cases), index(cases)))
}

/// Writes the bare formulas into a folder.
pub fn write_formulas(folder: &Path, name: &str, cases: &[FormulaCase]) -> Result<()> {
    write(folder, name, (formula_container(cases), formula_index(cases)))
}
