//! The proved calls with the arguments of the independent ones.

use hidokpalu::calls;
pub use hidokpalu::calls::{check_handover, check_image, replay_trace};
use hidokpalu::{Crossing, Run, Tariff};
use reference::bill;
use reference::handover::Across;
use reference::service::{Call, Kind, Lent, Request, Right, CALLERS, SERVICE};
use reference::trim::Answer;

/// Replays a trace of an image, with registers given, into a table and an answer.
pub type Replay = fn(&[u8], &[u8], &[u8], &mut [u8], &mut [usize]) -> u16;

/// A service: how it is opened, and how it serves a call.
#[derive(Clone, Copy)]
pub struct Service {
    pub open: fn(&[u8], &mut [u32]) -> u16,
    pub serve: fn(&mut [u32], &Call, &mut Lent) -> u16,
}

pub const SERVICE_CALLS: Service = Service { open: calls::open_service, serve };

/// All that a service can be asked for.
pub const KINDS: [Kind; 6] =
    [Kind::Check, Kind::Trim, Kind::Bill, Kind::Handover, Kind::Replay, Kind::ReplayHandover];

/// What the length is before a call of trimming: none that an image has.
const UNSET: usize = usize::MAX;

/// Trims an image into a buffer.
pub fn trim_image(image: &[u8], out: &mut [u8]) -> Answer {
    let mut length = UNSET;
    let code = calls::trim_image(image, out, &mut length);
    Answer { code, length }
}

/// Replays two traces across a handover.
pub fn replay_handover(call: &Across, table: &mut [u8], answer: &mut [usize]) -> u16 {
    calls::replay_handover(&crossing(call), table, answer)
}

/// Serves a call, as the independent function of this name does.
fn serve(service: &mut [u32], call: &Call, lent: &mut Lent) -> u16 {
    let caller = call.caller;
    match &call.request {
        Request::Check { image, room } => {
            calls::serve_check(service, caller, image, &mut lent.bytes[..*room])
        }
        Request::Trim { image, room } => {
            let (out, written) = (&mut lent.bytes[..*room], &mut lent.written);
            calls::serve_trim(service, caller, image, out, written)
        }
        Request::Bill { image, tariff, room } => {
            calls::serve_bill(service, caller, image, &priced(tariff), &mut lent.bill[..*room])
        }
        Request::Handover { old, new, points } => {
            calls::serve_handover(service, caller, old, new, points)
        }
        Request::Replay { image, trace, given, rooms } => {
            let (table, answer) = lent.for_replay(rooms);
            calls::serve_replay(service, caller, &Run { image, trace, given }, table, answer)
        }
        Request::ReplayHandover { across, rooms } => {
            let (table, answer) = lent.for_replay(rooms);
            let run = across.call();
            calls::serve_replay_handover(service, caller, &crossing(&run), table, answer)
        }
    }
}

/// Who bills.
const CALLER: usize = 5;

/// Bills as a caller of whom so many images are billed already. Panics if the service is not what it should be afterwards.
pub fn bill_into(image: &[u8], tariff: &bill::Tariff, billed: u32, answer: &mut [u32]) -> u16 {
    let mut service = [0; SERVICE];
    service[CALLER - 1] = Right::Bill as u32;
    service[CALLERS + CALLER - 1] = billed;
    let mut after = service;
    let code = calls::serve_bill(&mut after, CALLER, image, &priced(tariff), answer);
    service[CALLERS + CALLER - 1] = if code == 0 { billed + 1 } else { billed };
    assert_eq!(after, service, "the service after a bill with code {code}");
    code
}

fn priced(tariff: &bill::Tariff) -> Tariff {
    let bill::Tariff { start, step, taken, interference, least } = *tariff;
    Tariff { start, step, taken, interference, least }
}

fn crossing<'a>(call: &Across<'a>) -> Crossing<'a> {
    let traces = call.traces;
    Crossing {
        old: call.old,
        new: call.new,
        points: call.points,
        first: traces.first,
        second: traces.second,
        given: traces.given,
    }
}
