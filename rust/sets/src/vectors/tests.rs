//! Labels that name a code agree with the verdict.
use super::{bills, formulas, handovers, images, replays, rules, service, store, trims, Case};
use crate::examples::{message_passing, two_writes};
use reference::checker::check;
use reference::image::written::Written;
use reference::replay::replayed;
use reference::stored;
use reference::stored::service::TurnKind;
use std::collections::BTreeMap;

/// The code that a label names: "6: ...", "6 before 8 ...", "accepted: ...".
fn named_code(label: &str) -> Option<u16> {
    let first = label.split([' ', ':', ',']).next()?;
    match first {
        "accepted" | "harmless" => Some(0),
        _ if label.starts_with("one fault: ") => label.split(' ').nth(2)?.parse().ok(),
        _ if label.contains(':') || label.contains(" before ") => first.parse().ok(),
        _ => None,
    }
}

fn assert_labels(cases: &[Case]) {
    let differs =
        |case: &&Case| named_code(&case.label).is_some_and(|code| check(&case.image).code != code);
    let wrong: Vec<&str> = cases.iter().filter(differs).map(|case| &case.label[..]).collect();
    assert!(wrong.is_empty(), "{wrong:#?}");
}

#[test]
fn labels_name_the_code_found() {
    assert_labels(&images::cases());
    assert_labels(&rules::cases());
}

#[test]
fn sets_are_large_enough() {
    assert!(formulas::cases().len() >= 1000);
    assert!(images::cases().len() >= 300);
    assert!(rules::cases().len() >= 250);
}

#[test]
fn labels_are_distinct() {
    let labels = |cases: Vec<Case>| cases.into_iter().map(|case| case.label).collect();
    let trims = trims::cases().into_iter().map(|case| case.label).collect();
    let bills = bills::cases().into_iter().map(|case| case.label).collect();
    let replays = replays::cases().into_iter().map(|case| case.label).collect();
    let handovers = handovers::cases().into_iter().map(|case| case.label).collect();
    let crossings = handovers::crossings().into_iter().map(|case| case.label).collect();
    let turns = service::cases().into_iter().map(|case| case.label).collect();
    let [images, rules] = [images::cases(), rules::cases()].map(labels);
    let mut sets: [Vec<String>; 8] =
        [images, rules, trims, bills, replays, handovers, crossings, turns];
    for labels in &mut sets {
        labels.sort_unstable();
        let twice = labels.windows(2).find(|pair| pair[0] == pair[1]);
        assert_eq!(twice, None);
    }
}

/// How often each code comes.
fn by_code(codes: impl Iterator<Item = u16>) -> BTreeMap<u16, usize> {
    let mut counts = BTreeMap::new();
    codes.for_each(|code| *counts.entry(code).or_insert(0) += 1);
    counts
}

#[test]
fn trims_are_read_back() {
    let (bytes, text) = store::trims(&trims::cases());
    let cases = stored::trims::cases(&bytes).expect("whole");
    assert_eq!(cases.len(), text.lines().count());
    let counts = by_code(cases.iter().map(|case| case.code));
    assert!(counts.len() == 3 && counts.values().all(|&count| count >= 6), "{counts:?}");
    assert!(stored::trims::judged(&bytes).expect("whole").iter().all(|&same| same));
    assert!(stored::trims::cases(&bytes[..bytes.len() - 1]).is_none());
    // Only what the label says is refused is refused.
    for (case, line) in cases.iter().zip(text.lines()) {
        assert_eq!(case.code == 24, line.contains("\tverdict "), "{line}");
    }
}

#[test]
fn trimmed_numbers_pass_255() {
    let (bytes, _) = store::trims(&trims::cases());
    let cases = stored::trims::cases(&bytes).expect("whole");
    let images: Vec<Written> = cases.iter().filter_map(|c| Written::read(c.written)).collect();
    assert!(images.iter().filter(|image| image.lines.len() > 300).count() >= 2);
    assert!(images.iter().any(|image| image.formulas.len() > 300));
}

#[test]
fn bills_are_read_back() {
    let (bytes, text) = store::bills(&bills::cases());
    let cases = stored::bills::cases(&bytes).expect("whole");
    assert_eq!(cases.len(), text.lines().count());
    let counts = by_code(cases.iter().map(|case| case.code));
    let codes: Vec<u16> = counts.keys().copied().collect();
    assert!(codes == [0, 1, 30, 31] && counts.values().all(|&count| count >= 4), "{counts:?}");
    assert!(stored::bills::judged(&bytes).expect("whole").iter().all(|&same| same));
    assert!(stored::bills::cases(&bytes[..bytes.len() - 1]).is_none());
}

#[test]
fn turns_at_a_service_are_read_back() {
    let (bytes, text) = store::service(&service::cases());
    let cases = stored::service::cases(&bytes).expect("whole");
    assert!(cases.iter().map(|case| &case.turn).eq(service::cases().iter().map(|case| &case.turn)));
    assert!(stored::service::judged(&bytes).expect("whole").iter().all(|&same| same));
    assert!(stored::service::cases(&bytes[..bytes.len() - 1]).is_none());
    for (case, line) in cases.iter().zip(text.lines()) {
        let label = line.split('\t').nth(1).expect("a label");
        let named = named_code(label).filter(|_| (1..=8).contains(&case.turn.caller));
        // A caller without the right is told so, whatever the label says of the rest.
        assert!(case.left.code == 36 || named.is_none_or(|code| code == case.left.code), "{line}");
    }
}

/// Every code that a call can answer is answered to somebody, and each of the eight is served and refused.
#[test]
fn turns_at_a_service_have_every_code() {
    let (bytes, _) = store::service(&service::cases());
    let cases = stored::service::cases(&bytes).expect("whole");
    let of = |kind: TurnKind| {
        let codes = cases.iter().filter(|case| case.turn.kind == kind).map(|case| case.left.code);
        by_code(codes).into_keys().collect::<Vec<u16>>()
    };
    assert_eq!(of(TurnKind::Open), [0, 1]);
    assert_eq!(of(TurnKind::Check), [0, 1, 2, 3, 4, 5, 6, 7, 8, 9, 20, 21, 22, 23, 26, 35, 36]);
    assert_eq!(of(TurnKind::Trim), [0, 24, 25, 35, 36]);
    assert_eq!(of(TurnKind::Bill), [0, 1, 30, 31, 35, 36]);
    assert_eq!(of(TurnKind::Handover), [0, 32, 33, 34, 35, 36]);
    assert_eq!(of(TurnKind::Replay), [0, 1, 24, 27, 28, 29, 35, 36]);
    assert_eq!(of(TurnKind::ReplayHandover), [0, 1, 27, 28, 29, 32, 33, 34, 35, 36]);
    for caller in 1..=8 {
        let codes = cases.iter().filter(|case| case.turn.caller == caller);
        let codes = by_code(codes.map(|case| case.left.code));
        assert!(codes.contains_key(&0) && codes.contains_key(&36), "{caller}: {codes:?}");
    }
}

#[test]
fn replays_are_read_back() {
    let all = replays::cases();
    let (bytes, text) = store::replays(&all);
    let cases = stored::replays::cases(&bytes).expect("whole");
    assert_eq!((cases.len(), text.lines().count()), (all.len(), all.len()));
    let counts = by_code(cases.iter().map(|case| case.told.code));
    let codes: Vec<u16> = counts.keys().copied().collect();
    assert!(codes == [0, 1, 24, 27, 28, 29] && counts.values().all(|&n| n >= 12), "{counts:?}");
    assert!(stored::replays::judged(&bytes).expect("whole").iter().all(|&same| same));
    assert!(stored::replays::cases(&bytes[..bytes.len() - 1]).is_none());
    for (case, stored) in all.iter().zip(&cases) {
        let named = named_code(&case.label).filter(|&code| code < 30);
        assert!(
            named.is_none_or(|code| code == stored.told.code),
            "{}: {}",
            case.label,
            stored.told.code
        );
        let call = [&case.image, &case.call.trace, &case.call.given];
        assert_eq!(call.map(|part| &part[..]), [stored.image, stored.trace, stored.given]);
    }
}

#[test]
fn handovers_are_read_back() {
    let all = handovers::cases();
    let (bytes, text) = store::handovers(&all);
    let cases = stored::handovers::cases(&bytes).expect("whole");
    assert_eq!((cases.len(), text.lines().count()), (all.len(), all.len()));
    let counts = by_code(cases.iter().map(|case| case.code));
    let codes: Vec<u16> = counts.keys().copied().collect();
    assert!(codes == [0, 32, 33, 34] && counts.values().all(|&n| n >= 30), "{counts:?}");
    assert!(stored::handovers::judged(&bytes).expect("whole").iter().all(|&same| same));
    assert!(stored::handovers::cases(&bytes[..bytes.len() - 1]).is_none());
    for (case, stored) in all.iter().zip(&cases) {
        let named = named_code(&case.label);
        assert!(named.is_none_or(|code| code == stored.code), "{}: {}", case.label, stored.code);
        assert_eq!(case.pair.table, stored.table);
    }
}

#[test]
fn crossings_are_read_back() {
    let all = handovers::crossings();
    let (bytes, text) = store::crossings(&all);
    let cases = stored::crossings::cases(&bytes).expect("whole");
    assert_eq!((cases.len(), text.lines().count()), (all.len(), all.len()));
    let counts = by_code(cases.iter().map(|case| case.told.code));
    let codes: Vec<u16> = counts.keys().copied().collect();
    assert!(codes == [0, 1, 27, 28, 29, 32, 33, 34], "{counts:?}");
    assert!(counts.values().all(|&n| n >= 4), "{counts:?}");
    assert!(stored::crossings::judged(&bytes).expect("whole").iter().all(|&same| same));
    assert!(stored::crossings::cases(&bytes[..bytes.len() - 1]).is_none());
    for (case, stored) in all.iter().zip(&cases) {
        let named = named_code(&case.label);
        assert!(
            named.is_none_or(|code| code == stored.told.code),
            "{}: {}",
            case.label,
            stored.told.code
        );
        assert_eq!(case.crossing.second, stored.given.traces.second);
    }
}

/// A run that is handed over to the same code ends as it does without that.
#[test]
fn runs_handed_over_to_themselves() {
    let all = handovers::crossings();
    let (bytes, _) = store::crossings(&all);
    let cases = stored::crossings::cases(&bytes).expect("whole");
    for name in ["message passing: ", "two writes: "] {
        let named = all.iter().zip(&cases).filter(|(case, _)| case.label.starts_with(name));
        let ends: Vec<_> = named
            .map(|(_, stored)| (stored.told.code, stored.told.answer, stored.told.written))
            .collect();
        assert!(ends.len() > 4 && ends.iter().all(|end| *end == ends[0]));
        let plan = if ends[0].1[0] == 7 { message_passing() } else { two_writes() };
        let trace = all.iter().find(|case| case.label.starts_with(name)).expect("there");
        let whole = [&trace.crossing.call.trace[..], &trace.crossing.second].concat();
        let replayed = replayed(Some(&plan.program), &whole, &[], 64);
        assert_eq!((replayed.code, replayed.numbers()), (0, ends[0].1));
    }
}
