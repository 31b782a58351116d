//! Codes 2 to 4: the whole image and record frames.

use super::{Case, Draft, SMALL};
use crate::vectors::formulas::long_formula;
use reference::checker::frames::{CLAIM, FORMULA, LINE, OBLIGATIONS, THREAD};
use reference::checker::limits;
use reference::image::written::Record;

pub fn cases() -> Vec<Case> {
    [whole_image(), cut(), lengths(), kinds(), counts_of_kinds()].concat()
}

fn whole_image() -> Vec<Case> {
    let mut without_line = SMALL;
    without_line[48] = 0;
    vec![
        Case::new("accepted: small image", SMALL.to_vec()),
        Case::new("20: small image with line number 0", without_line.to_vec()),
        Draft::new().case("accepted: tour image"),
        Case::new("2: empty image", Vec::new()),
        Case::new("accepted: image of 65,535 bytes", padded(65_535)),
        Case::new("accepted: image of 65,536 bytes", padded(65_536)),
        Case::new("accepted: image of 65,537 bytes", padded(65_537)),
        Case::new("accepted: image of 100,000 bytes", padded(100_000)),
        Case::new("3: 65,535 zero bytes", vec![0; 65_535]),
        Case::new("3: 262,144 zero bytes", vec![0; limits::IMAGE_BYTES]),
        Case::new("2: 262,145 zero bytes", vec![0; limits::IMAGE_BYTES + 1]),
    ]
}

/// The small image with formulas that nothing uses, up to a length.
fn padded(length: usize) -> Vec<u8> {
    let wanted = length - SMALL.len();
    let full = Record::new(FORMULA, long_formula(200)).bytes();
    let records = wanted / full.len() - 1;
    let rest = wanted - records * full.len();
    let half = rest / 2;
    let last =
        [half, rest - half].map(|bytes| Record::new(FORMULA, long_formula(bytes - 4)).bytes());
    [&SMALL[..21], &full.repeat(records), &last.concat(), &SMALL[21..]].concat()
}

/// 3 inside a record, 4 between records unless only claims are missing: the small image cut at every length,
/// the tour image around borders of records of each kind.
fn cut() -> Vec<Case> {
    let mut cases: Vec<Case> = (1..SMALL.len())
        .map(|length| {
            Case::new(
                format!("length cut short, kinds missing: small image cut at {length}"),
                SMALL[..length].to_vec(),
            )
        })
        .collect();
    let draft = Draft::new();
    let bytes = draft.bytes();
    for index in border_records(&draft) {
        let record = &draft.records[index];
        let mut places = vec![0, 1, 2, 3, 4, record.body.len() + 3];
        places.dedup();
        for kept in places {
            let length = offset(&draft, index) + kept;
            let label = format!(
                "length cut short, kinds missing: cut {kept} bytes into record {}",
                index + 1
            );
            cases.push(Case::new(label, bytes[..length].to_vec()));
        }
    }
    cases
}

/// The first, a middle and the last record of the tour image.
fn some_records(draft: &Draft) -> [(&'static str, usize); 3] {
    [("first", 0), ("middle", draft.index(THREAD, 1)), ("last", draft.records.len() - 1)]
}

/// The records beside one of another kind, and the second of each kind.
fn border_records(draft: &Draft) -> Vec<usize> {
    let kind = |index: usize| draft.records.get(index).map(|record| record.kind);
    let first = |index: usize| index == 0 || kind(index - 1) != kind(index);
    let chosen =
        |&index: &usize| first(index) || first(index - 1) || kind(index) != kind(index + 1);
    (0..draft.records.len()).filter(chosen).collect()
}

/// Where a record starts in the image.
fn offset(draft: &Draft, index: usize) -> usize {
    draft.records[..index].iter().map(|record| record.body.len() + 4).sum()
}

fn lengths() -> Vec<Case> {
    let draft = Draft::new();
    let bytes = draft.bytes();
    let mut cases = Vec::new();
    for (name, index) in some_records(&draft) {
        let place = offset(&draft, index);
        let to_end = (bytes.len() - place - 2) as u16;
        for length in [0, 1, 2, 3, to_end, to_end + 1, 0x7fff, 0xffff] {
            let mut changed = bytes.clone();
            changed[place..place + 2].copy_from_slice(&length.to_le_bytes());
            cases.push(Case::new(format!("length field: {name} record, length {length}"), changed));
        }
    }
    for stray in [&[0][..], &[2], &[2, 0], &[2, 0, 6], &[1, 0, 6], &[0, 0], &[255, 255]] {
        let label = format!("3: {} bytes behind the last record, {stray:?}", stray.len());
        cases.push(Case::new(label, [&bytes[..], stray].concat()));
    }
    cases
}

/// Every other kind at records of each kind; records missing, doubled and exchanged.
fn kinds() -> Vec<Case> {
    let draft = Draft::new();
    let mut cases = Vec::new();
    for index in border_records(&draft) {
        let number = index + 1;
        let high_byte = draft.records[index].kind + 256;
        for kind in [0, 1, 2, 3, 4, 5, 6, 7, 8, 9, high_byte] {
            let mut changed = draft.clone();
            changed.records[index].kind = kind;
            if kind != draft.records[index].kind {
                cases.push(changed.case(format!("kind: record {number} has kind {kind}")));
            }
        }
        let mut missing = draft.clone();
        missing.records.remove(index);
        cases.push(missing.case(format!("kinds in order: record {number} is missing")));
        let mut doubled = draft.clone();
        doubled.records.insert(index, draft.records[index].clone());
        cases.push(doubled.case(format!("kinds in order: record {number} stands twice")));
        if number < draft.records.len() {
            let mut exchanged = draft.clone();
            exchanged.records.swap(index, number);
            cases.push(
                exchanged
                    .case(format!("kinds in order: records {number} and {} exchanged", number + 1)),
            );
        }
    }
    for kind in [0, 1, 2, 3, 4, 5, 6, 7, 9, 10] {
        for (place, claims) in [("obligations", 0), ("claims", draft.count(CLAIM))] {
            let mut behind = draft.clone();
            behind.records.truncate(draft.index(OBLIGATIONS, 0) + 1 + claims);
            behind.records.push(Record::new(kind, []));
            cases.push(behind.case(format!("4: a record of kind {kind} behind the {place}")));
        }
    }
    cases
}

/// The most records of a kind, and one more.
fn counts_of_kinds() -> Vec<Case> {
    let mut cases = Vec::new();
    let kinds = [("formulas", FORMULA, limits::FORMULAS), ("lines", LINE, limits::LINES)];
    for (name, kind, most) in kinds {
        for count in [most, most + 1] {
            let mut draft = Draft::new();
            let last = draft.index(kind, draft.count(kind) - 1);
            let filler = if kind == FORMULA {
                Record::new(kind, [8])
            } else {
                draft.records[draft.index(LINE, 0)].clone()
            };
            let missing = count - draft.count(kind);
            draft.records.splice(last + 1..last + 1, vec![filler; missing]);
            cases.push(draft.case(format!("kind too often: {count} {name}, {most} are allowed")));
        }
    }
    for count in [3, 4, 5] {
        let mut draft = Draft::new();
        let last = draft.index(THREAD, 1);
        draft.records.splice(last + 1..last + 1, vec![Record::new(THREAD, [1]); count - 2]);
        cases.push(
            draft.case(format!(
                "kind too often, header threads: {count} thread records, header has 2"
            )),
        );
    }
    cases
}
