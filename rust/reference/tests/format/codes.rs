//! Codes: an image or a call for each of them, and the fields of the verdict.

use crate::images::{line, single, small, with_code, START, TRUTH, ZERO};
use crate::page::{number, numbers, spans, table};
use reference::bill::{self, Tariff};
use reference::checker::verdict::{Verdict, OUTPUT_TOO_SHORT, RECORD_BYTES};
use reference::checker::{check, check_into};
use reference::image::written::{image_bytes, Written};
use reference::image::{Claim, Meeting};
use reference::service::{admitted, Right, NO_RIGHT, NO_SUCH_CALLER, SERVICE};
use reference::{handover, replay, trim};

/// The small image with one change.
fn changed(change: impl Fn(&mut Written)) -> Verdict {
    let mut image = small(2);
    change(&mut image);
    check(&image.bytes())
}

/// The verdict on a thread with one instruction, and on its formula 5.
fn acting(operation: u8, a: u8, b: u8, formula: u16, bytes: &[u8]) -> Verdict {
    let mut image = with_code(2, vec![single(operation, a, b, formula)]);
    image.header.owners = vec![1, 1, 2];
    image.formulas.push(bytes.to_vec());
    check(&image.bytes())
}

/// A verdict for each code of an image.
fn verdicts() -> Vec<Verdict> {
    let meeting = Meeting { thread: 1, point: 0, other_thread: 2, other_point: 0 };
    let mut records = small(2).records();
    records.pop();
    vec![
        changed(|_| ()),
        check(&[]),
        check(&[0]),
        check(&image_bytes(&records)),
        changed(|image| image.header.start = vec![0; 3]),
        changed(|image| image.outline[1] = 9),
        changed(|image| image.formulas.push(vec![4])),
        changed(|image| image.outline[1] = ZERO),
        acting(0, 3, 0, ZERO, &[8]),
        acting(7, 1, 1, 5, &[1, 1]),
        changed(|image| image.obligations[1] = 0),
        changed(|image| image.lines[0] = line(20, TRUTH, TRUTH)),
        changed(|image| image.lines[0] = line(27, START, TRUTH)),
        changed(|image| image.claims.push(Claim { meeting, line: 0 })),
    ]
}

/// Codes of the calls that stand on the checker.
fn other_codes() -> Vec<u16> {
    let accepted = small(1).bytes();
    let stepping = with_code(1, vec![single(3, 1, 0, ZERO)]).bytes();
    assert_eq!(check(&stepping).code, 20);
    let replayed = |trace: &[u8], entries: usize| {
        let table = &mut vec![0; entries * replay::WRITE_BYTES];
        replay::replay(&accepted, trace, &[], table, &mut [0; replay::ANSWER])
    };
    let tariff = Tariff::default();
    vec![
        check_into(&accepted, &mut [0; RECORD_BYTES - 1]),
        trim::trim_into(&stepping, &mut [0; 1000]).code,
        trim::trim_into(&accepted, &mut []).code,
        replayed(&[1, 0], 64),
        not_permitted(),
        replayed(&[], 1),
        bill::bill(&stepping, &tariff, 0).code,
        bill::bill(&accepted, &tariff, u32::MAX).code,
        handover::check_handover(&accepted, &stepping, &[]),
        handover::check_handover(&accepted, &accepted, &[]),
        handover::check_handover(&accepted, &accepted, &[0, 1, 0]),
        admitted(&[0; SERVICE], 9, Right::Check),
        admitted(&[0; SERVICE], 8, Right::Check),
    ]
}

/// The code of a step to a position that is not there, in an accepted image with one instruction.
fn not_permitted() -> u16 {
    let mut image = with_code(1, vec![single(0, 1, 0, ZERO)]);
    let mut kept = line(2, TRUTH, TRUTH);
    kept.thread = 1;
    image.lines.push(kept);
    image.obligations = vec![1, 2];
    let table = &mut [0; 64 * replay::WRITE_BYTES];
    replay::replay(&image.bytes(), &[1, 1], &[], table, &mut [0; replay::ANSWER])
}

#[test]
fn every_code_is_told_and_no_other() {
    let mut seen: Vec<u16> = verdicts().iter().map(|verdict| verdict.code).collect();
    seen.extend(other_codes());
    let told = table(["Code", "Name in the header", "Place", "Means"]).into_iter();
    let mut told: Vec<u16> = told.map(|[code, ..]| number(&code) as u16).collect();
    seen.sort_unstable();
    told.sort_unstable();
    assert_eq!(told, seen);
}

/// The codes of an image from the whole image on, in groups that are looked for one after the other.
pub fn image_codes() -> Vec<Vec<u16>> {
    let groups = |verdict: &Verdict| match verdict {
        Verdict { class: 1.., .. } => "obligation",
        Verdict { count: 1.., .. } => "claim",
        Verdict { record: 0, .. } => "whole image",
        Verdict { code: 3 | 4, .. } => "frame",
        _ => "body",
    };
    let places = ["whole image", "frame", "body", "obligation", "claim"];
    let refused: Vec<Verdict> = verdicts().into_iter().filter(|one| one.code != 0).collect();
    let of_place = |place: &str| {
        let found = refused.iter().filter(|verdict| groups(verdict) == place);
        found.map(|verdict| verdict.code).collect()
    };
    places.map(of_place).to_vec()
}

#[test]
fn places_of_codes_are_those_of_the_verdict() {
    let rows = table(["Code", "Name in the header", "Place", "Means"]);
    let places = ["whole image", "frame", "body", "obligation", "claim"];
    let of_place = |place: &str| {
        let found = rows.iter().filter(|row| row[2] == place);
        found.map(|[code, ..]| number(code) as u16).collect::<Vec<u16>>()
    };
    let told = places.map(of_place);
    assert_eq!(told.to_vec(), image_codes());
    let calls: [(&str, &[u16]); 7] = [
        ("", &[0]),
        ("output", &[OUTPUT_TOO_SHORT, trim::OUTPUT_TOO_SHORT]),
        ("image", &[trim::NOT_ACCEPTED, bill::NOT_ACCEPTED]),
        ("step", &[replay::NO_STEP, replay::NOT_PERMITTED, replay::NO_ENTRY]),
        ("caller", &[bill::NUMBER_AT_END, NO_SUCH_CALLER, NO_RIGHT]),
        ("images", &[handover::UNLIKE]),
        ("handover table", &[handover::OUT_OF_RANGE, handover::DOES_NOT_SERVE]),
    ];
    for (place, codes) in calls {
        assert_eq!(of_place(place), codes, "{place}");
    }
}

#[test]
fn fields_stand_where_the_page_says() {
    let verdict = Verdict {
        code: 26,
        record: 1001,
        class: 1002,
        thread: 1003,
        point: 1004,
        other_thread: 1005,
        other_point: 1006,
        line: 1007,
        count: 1008,
    };
    let record = verdict.record();
    let rows = table_of_fields();
    assert_eq!(rows.len() * 2, RECORD_BYTES);
    let numbers = [20, 7].into_iter().chain(verdict.fields());
    for ((place, name), number) in rows.iter().zip(numbers) {
        let found = u16::from_le_bytes([record[*place], record[place + 1]]);
        assert_eq!(found, number, "{name}");
    }
    let names: Vec<&str> = rows.iter().map(|(_, name)| name.as_str()).collect();
    let fields = "LENGTH KIND CODE RECORD CLASS THREAD POINT OTHER_THREAD OTHER_POINT LINE COUNT";
    let fields = fields.split(' ').map(|field| format!("HIDOKPALU_AT_{field}"));
    assert_eq!(names, fields.collect::<Vec<_>>());
}

/// The places of the verdict's fields, of all tables of places the first.
fn table_of_fields() -> Vec<(usize, String)> {
    let tables = crate::page::tables();
    let verdict = tables.iter().find(|table| table.column("Place") == Some(0)).expect("a table");
    let rows = verdict.rows.iter();
    rows.map(|row| (numbers(&row[0])[0] as usize, spans(&row[1]).0[0].to_string())).collect()
}
