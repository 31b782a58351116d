//! Calls: their names, their codes in order, and the rights that they need.

use crate::codes::image_codes;
use crate::header::functions;
use crate::images::small;
use crate::page::{number, numbers, spans, table};
use reference::bill::Tariff;
use reference::service::{
    open_service, serve, Call, Lent, Request, Rooms, Update, NO_RIGHT, SERVICE,
};
use reference::{bill, checker, handover, replay, service, trim};
use std::rc::Rc;

/// A row: the call, the right that it needs, its codes in groups.
type Row = (String, u32, Vec<Vec<u32>>);

fn told() -> Vec<Row> {
    let rows = table(["Call", "Right", "Codes, in their order"]).into_iter();
    rows.map(|[call, right, codes]| {
        let right = if right.is_empty() { 0 } else { number(&right) };
        let groups = codes.split("; ").map(numbers).collect();
        (spans(&call).0[0].to_string(), right, groups)
    })
    .collect()
}

/// The codes of each call that serves nobody in particular.
fn groups_of(call: &str) -> Vec<Vec<u16>> {
    let alone = |codes: &[u16]| codes.iter().map(|&code| vec![code]).collect::<Vec<_>>();
    let steps = vec![replay::NO_STEP, replay::NOT_PERMITTED, replay::NO_ENTRY];
    let handover = alone(&[handover::UNLIKE, handover::OUT_OF_RANGE, handover::DOES_NOT_SERVE]);
    let short = vec![vec![replay::ANSWER_TOO_SHORT]];
    match call {
        "check" => {
            let short = vec![vec![checker::verdict::OUTPUT_TOO_SHORT]];
            [short, image_codes()].concat()
        }
        "trim" => alone(&[trim::NOT_ACCEPTED, trim::OUTPUT_TOO_SHORT]),
        "replay" => [short, vec![vec![replay::NOT_ACCEPTED], steps]].concat(),
        "handover" => handover,
        "replay_handover" => [short, handover, vec![steps]].concat(),
        "bill" => alone(&[bill::ANSWER_TOO_SHORT, bill::NOT_ACCEPTED, bill::NUMBER_AT_END]),
        _ => panic!("no call {call}"),
    }
}

/// The codes of a call by its name in the header.
fn known(call: &str) -> Vec<Vec<u32>> {
    let groups = match (call, call.strip_prefix("serve_")) {
        ("open_service", _) => vec![vec![service::SERVICE_TOO_SHORT]],
        ("check_image", _) => groups_of("check"),
        ("trim_image", _) => groups_of("trim"),
        ("replay_trace", _) => groups_of("replay"),
        ("check_handover", _) => groups_of("handover"),
        ("replay_handover", _) => groups_of("replay_handover"),
        (_, Some(served)) => {
            let first = vec![vec![service::NO_SUCH_CALLER], vec![NO_RIGHT]];
            [first, groups_of(served)].concat()
        }
        _ => panic!("no call {call}"),
    };
    groups.into_iter().map(|group| group.into_iter().map(u32::from).collect()).collect()
}

#[test]
fn calls_and_their_codes_are_those_of_the_page() {
    let told = told();
    let names: Vec<&String> = told.iter().map(|(call, ..)| call).collect();
    assert_eq!(names, functions().iter().collect::<Vec<_>>());
    for (call, _, codes) in &told {
        assert_eq!(*codes, known(call), "{call}");
    }
}

/// A request by the name of its call, with room for every answer.
fn request(call: &str) -> Option<Request> {
    let image: Rc<[u8]> = small(1).bytes().into();
    let rooms = Rooms { table: 0, answer: replay::ANSWER };
    let (trace, given) = (Vec::new(), Vec::new());
    Some(match call.strip_prefix("serve_")? {
        "check" => Request::Check { image, room: 22 },
        "trim" => Request::Trim { image, room: 0 },
        "bill" => Request::Bill { image, tariff: Tariff::default(), room: bill::ANSWER },
        "handover" => Request::Handover { old: image.clone(), new: image, points: Vec::new() },
        "replay" => Request::Replay { image, trace, given, rooms },
        "replay_handover" => {
            let (old, new) = (image.clone(), image);
            let update = Update { old, new, points: vec![], first: trace, second: vec![], given };
            Request::ReplayHandover { across: update.into(), rooms }
        }
        _ => panic!("no call {call}"),
    })
}

/// The code for caller 1, who has these rights.
fn answer(request: Request, rights: u8) -> u16 {
    let mut service = [0; SERVICE];
    assert_eq!(open_service(&[rights], &mut service), 0);
    let (bytes, replay) = (vec![0; 64], vec![0; replay::ANSWER]);
    let mut lent = Lent { bytes, written: 0, bill: vec![0; bill::ANSWER], replay };
    serve(&mut service, &Call { caller: 1, request }, &mut lent)
}

#[test]
fn each_call_needs_the_right_of_the_page() {
    for (call, right, _) in told() {
        let Some(request) = request(&call) else {
            assert_eq!(right, 0, "{call}");
            continue;
        };
        for rights in 0..8_u32 {
            let refused = answer(request.clone(), rights as u8) == NO_RIGHT;
            assert_eq!(refused, rights & right == 0, "{call} with {rights}");
        }
    }
}

#[test]
fn rights_name_their_calls() {
    for [right, _, cell] in table(["Right", "Name in the header", "Calls"]) {
        let calls = told().into_iter().filter(|(_, needed, _)| *needed == number(&right));
        assert_eq!(spans(&cell).0, calls.map(|(call, ..)| call).collect::<Vec<_>>());
    }
}

#[test]
fn of_two_codes_the_first_group_is_told() {
    let not_accepted: &[u8] = &[];
    let accepted = small(1).bytes();
    assert_eq!(trim::trim_into(not_accepted, &mut []).code, 24);
    assert_eq!(trim::trim_into(&accepted, &mut []).code, 25);
    assert_eq!(replay::replay(not_accepted, &[9], &[], &mut [], &mut [0; 20]), 1);
    assert_eq!(replay::replay(not_accepted, &[9], &[], &mut [], &mut [0; 21]), 24);
    assert_eq!(replay::replay(&accepted, &[9], &[], &mut [0; 22], &mut [0; 21]), 27);
    assert_eq!(replay::replay(&accepted, &[9], &[], &mut [0; 21], &mut [0; 21]), 29);
    assert_eq!(handover::check_handover(&accepted, not_accepted, &[]), 32);
    assert_eq!(handover::check_handover(&accepted, &accepted, &[]), 33);
    assert_eq!(handover::check_handover(&accepted, &accepted, &[0, 1, 0]), 34);
    let mut service = [7, 0, 0, 0, 0, 0, 0, 0, u32::MAX];
    let tariff = Tariff::default();
    assert_eq!(service::serve_bill(&mut service, 9, not_accepted, &tariff, &mut []), 35);
    assert_eq!(service::serve_bill(&mut service, 2, not_accepted, &tariff, &mut []), 36);
    assert_eq!(service::serve_bill(&mut service, 1, not_accepted, &tariff, &mut [0; 5]), 1);
    assert_eq!(service::serve_bill(&mut service[..8], 1, &accepted, &tariff, &mut [0; 6]), 1);
    assert_eq!(service::serve_bill(&mut service, 1, not_accepted, &tariff, &mut [0; 6]), 30);
    assert_eq!(service::serve_bill(&mut service, 1, &accepted, &tariff, &mut [0; 6]), 31);
    assert_eq!(open_service(&[], &mut service), 1);
}
