//! Each call of the crate on an image that is accepted and on one that is not, beside the independent checker.

use hidokpalu::{
    check, check_handover, replay, replay_handover, trim, trim_into, BillError, Class, Crossing,
    Denied, Fault, HandoverError, Obligation, Point, Reason, Refused, Rights, Run, Service,
    ServiceError, StepRefusal, Tariff, TrimError, Verdict, Write,
};
use reference::checker;
use sets::examples::message_passing;
use sets::examples::program_inputs::stored;
use sets::generate;
use sets::vectors::handovers::with_itself;

fn accepted() -> Vec<u8> {
    message_passing().bytes()
}

const TARIFF: Tariff = Tariff { start: 1, step: 2, taken: 3, interference: 4, least: 5 };

#[test]
fn a_verdict_says_what_its_record_says() {
    assert_eq!(check(&accepted()), Verdict::Accepted { obligations: 22 });
    assert_eq!(check(&[]), Verdict::Malformed { fault: Fault::Size, record: 0 });
    assert_eq!(check(&[9, 0, 9]), Verdict::Malformed { fault: Fault::Length, record: 1 });
    let at = Point { thread: 3, point: 5 };
    let other = Some(Point { thread: 2, point: 7 });
    let obligation = Obligation { class: Class::Interference, at, other };
    let reason = Reason::OtherConclusion;
    let failing = Verdict::Unmet { reason, obligation, line: 300, met: 416 };
    assert_eq!(check(&stored().bytes), failing);
}

/// Every code comes, and each verdict has the independent checker's.
#[test]
fn codes_are_the_independent_checkers() {
    let mut seen = std::collections::BTreeSet::new();
    for seed in 0..6_000 {
        let image = generate::image(seed);
        let verdict = check(&image);
        let expected = checker::check(&image);
        assert_eq!(verdict.code(), expected.code, "seed {seed}");
        assert_eq!(verdict.is_accepted(), expected.code == 0);
        if let Verdict::ClaimFails { record, points: [one, other], line, met } = verdict {
            let told = [record, one.thread, one.point, other.thread, other.point, line, met];
            let e = expected;
            let own = [e.record, e.thread, e.point, e.other_thread, e.other_point, e.line, e.count];
            assert_eq!(told, own, "seed {seed}");
        }
        seen.insert(verdict.code());
    }
    assert!([0, 20, 21, 22, 26].iter().all(|code| seen.contains(code)), "{seen:?}");
}

#[test]
fn an_image_is_trimmed() {
    let image = accepted();
    let trimmed = reference::trim::trimmed(&image).expect("accepted");
    assert_eq!(trim(&image), Ok(trimmed.clone()));
    assert_eq!(trim(&[]), Err(Refused));
    let mut room = vec![7; trimmed.len() - 1];
    assert_eq!(trim_into(&image, &mut room), Err(TrimError::Room));
    assert!(room.iter().all(|byte| *byte == 7));
    room.extend([7, 7]);
    assert_eq!(trim_into(&image, &mut room), Ok(trimmed.len()));
    assert_eq!((&room[..trimmed.len()], room[trimmed.len()]), (&trimmed[..], 7));
    assert_eq!(trim_into(&[], &mut room), Err(TrimError::Refused));
}

/// The writer stores to both words; the reader sees the flag.
#[test]
fn a_trace_is_replayed() {
    let image = accepted();
    let done = replay(&image, &[1, 0, 1, 0], &[]).expect("accepted");
    assert_eq!((done.refusal, done.steps, done.points), (None, 2, [2, 0, 0, 0]));
    assert_eq!(done.writes.len(), 4);
    let first = Write { value: 0, releasing: false, covered: false, view: [0; 8] };
    assert_eq!(done.writes[0].value, first.value);
    let stuck = replay(&image, &[1, 0, 9, 0], &[]).expect("accepted");
    assert_eq!((stuck.refusal, stuck.steps), (Some(StepRefusal::Thread), 1));
    let pick = replay(&image, &[1, 9], &[]).expect("accepted");
    assert_eq!((pick.refusal, pick.steps, pick.writes.len()), (Some(StepRefusal::Pick), 0, 2));
    assert_eq!(replay(&[], &[], &[]), Err(Refused));
    // The table that the wrapper reads is the independent one's, entry by entry.
    let mut table = [0; 64 * 11];
    let mut answer = [0; 21];
    let code = reference::replay::replay(&image, &[1, 0, 1, 0], &[], &mut table, &mut answer);
    assert_eq!((code, answer[0]), (0, done.steps));
    for (entry, write) in table.chunks(11).zip(&done.writes) {
        let told = [write.value, write.releasing.into(), write.covered.into()];
        assert_eq!((&entry[..3], &entry[3..]), (&told[..], &write.view[..]));
    }
}

#[test]
fn a_handover_is_permitted_or_refused() {
    let pair = with_itself(&accepted());
    assert_eq!(check_handover(&pair.old, &pair.new, &pair.table), Ok(()));
    let table = HandoverError::Table;
    assert_eq!(check_handover(&pair.old, &pair.new, &[]), Err(table));
    assert_eq!(check_handover(&pair.old, &[], &pair.table), Err(HandoverError::Unlike));
    let first = [1, 0];
    let crossing = Crossing {
        old: &pair.old,
        new: &pair.new,
        points: &pair.table,
        first: &first,
        second: &first,
        given: &[],
    };
    let across = replay_handover(&crossing).expect("permitted");
    assert_eq!((across.refusal, across.steps, across.points), (None, 2, [2, 0, 0, 0]));
    assert_eq!(replay_handover(&Crossing { points: &[], ..crossing }), Err(table));
}

#[test]
fn a_service_serves_by_its_rights() {
    let image = accepted();
    let mut service = Service::open(&[Rights::CHECK | Rights::REPLAY, Rights::BILL]);
    assert_eq!(service.check(1, &image), Ok(Verdict::Accepted { obligations: 22 }));
    assert_eq!(service.check(2, &image), Err(Denied::NoRight));
    assert_eq!(service.check(9, &image), Err(Denied::NoCaller));
    assert_eq!(service.trim(1, &image), Ok(trim(&image).expect("accepted")));
    assert_eq!(service.trim(1, &[]), Err(ServiceError::Call(Refused)));
    assert_eq!(service.trim(3, &image), Err(ServiceError::Denied(Denied::NoRight)));
    let run = Run { image: &image, trace: &[1, 0], given: &[] };
    assert_eq!(service.replay(1, &run), Ok(replay(&image, &[1, 0], &[]).expect("accepted")));
    assert_eq!(service.replay(2, &run), Err(ServiceError::Denied(Denied::NoRight)));
    let pair = with_itself(&image);
    assert_eq!(service.check_handover(1, &pair.old, &pair.new, &pair.table), Ok(()));
    let unlike = Err(ServiceError::Call(HandoverError::Unlike));
    assert_eq!(service.check_handover(1, &pair.old, &[], &pair.table), unlike);

    // 2 starts, 5 steps, a branch taken and 14 interferences.
    let bill = service.bill(2, &image, &TARIFF).expect("it may bill");
    assert_eq!((bill.cents, bill.billed), (2 + 5 * 2 + 3 + 14 * 4, 1));
    assert_eq!(bill.threads.iter().sum::<u32>(), bill.cents);
    let refused = Err(ServiceError::Call(BillError::Refused));
    assert_eq!(service.bill(2, &[], &TARIFF), refused);
    assert_eq!(service.bill(1, &image, &TARIFF), Err(ServiceError::Denied(Denied::NoRight)));
    assert_eq!([1, 2, 9].map(|caller| service.billed(caller)), [Some(0), Some(1), None]);
}
