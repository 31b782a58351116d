//! The calls whose stack is measured, each made of an image.

use crate::proved::{
    check_handover, check_image, replay_handover, replay_trace, trim_image, SERVICE_CALLS,
};
use reference::bill::{self, Tariff};
use reference::checker::decode;
use reference::replay::{ANSWER, MOST_WRITES, WRITE_BYTES};
use reference::service::{self, Kind, Lent, Request, Right, Rooms, Update, SERVICE};
use sets::generate::handovers::Pair;
use sets::generate::random::Random;
use sets::generate::traces;
use sets::vectors::handovers::with_itself;

/// What `include/hidokpalu.h` says to give to a call, in bytes: the checker and what takes little
/// more, and calls that take much more.
const LITTLE: usize = 192 << 10;
const MUCH: usize = 256 << 10;

/// A trace has at most so many steps.
const STEPS: usize = 60;
/// Who calls a service.
const CALLER: usize = 1;

/// A call of the archive.
#[derive(Clone, Copy)]
pub struct Measured {
    pub name: &'static str,
    /// So many bytes of stack it is to be given.
    pub given: usize,
    kind: Kind,
    /// Whether a service makes it.
    served: bool,
}

const fn alone(name: &'static str, kind: Kind, given: usize) -> Measured {
    Measured { name, given, kind, served: false }
}

const fn served(name: &'static str, kind: Kind, given: usize) -> Measured {
    Measured { name, given, kind, served: true }
}

pub const CHECK: Measured = alone("check_image", Kind::Check, LITTLE);

pub const ALL: [Measured; 11] = [
    CHECK,
    alone("trim_image", Kind::Trim, MUCH),
    alone("replay_trace", Kind::Replay, LITTLE),
    alone("check_handover", Kind::Handover, MUCH),
    alone("replay_handover", Kind::ReplayHandover, MUCH),
    served("serve_check", Kind::Check, LITTLE),
    served("serve_trim", Kind::Trim, MUCH),
    served("serve_bill", Kind::Bill, LITTLE),
    served("serve_replay", Kind::Replay, LITTLE),
    served("serve_handover", Kind::Handover, MUCH),
    served("serve_replay_handover", Kind::ReplayHandover, MUCH),
];

impl Measured {
    /// The call on an image, to be made later; it answers with the code.
    pub fn on(&self, image: &[u8]) -> impl FnMut() -> u16 {
        let call = service::Call { caller: CALLER, request: request(self.kind, image) };
        let mut lent = lent(image.len());
        let mut service = [0; SERVICE];
        service[CALLER - 1] = Right::Check as u32 | Right::Replay as u32 | Right::Bill as u32;
        let is_served = self.served;
        move || match is_served {
            true => (SERVICE_CALLS.serve)(&mut service, &call, &mut lent),
            false => make(&call.request, &mut lent),
        }
    }
}

/// Makes a call without a service.
fn make(request: &Request, lent: &mut Lent) -> u16 {
    match request {
        Request::Check { image, room } => check_image(image, &mut lent.bytes[..*room]),
        Request::Trim { image, room } => trim_image(image, &mut lent.bytes[..*room]).code,
        Request::Handover { old, new, points } => check_handover(old, new, points),
        Request::Replay { image, trace, given, rooms } => {
            let (table, answer) = lent.for_replay(rooms);
            replay_trace(image, trace, given, table, answer)
        }
        Request::ReplayHandover { across, rooms } => {
            let (table, answer) = lent.for_replay(rooms);
            replay_handover(&across.call(), table, answer)
        }
        Request::Bill { .. } => unreachable!("a service makes it"),
    }
}

/// Room enough for every reply about an image of so many bytes.
fn lent(bytes: usize) -> Lent {
    Lent {
        bytes: vec![0; bytes.max(MOST_WRITES * WRITE_BYTES)],
        written: 0,
        bill: vec![0; bill::ANSWER],
        replay: vec![0; ANSWER],
    }
}

/// What is asked about an image.
fn request(kind: Kind, image: &[u8]) -> Request {
    let rooms = Rooms { table: MOST_WRITES * WRITE_BYTES, answer: ANSWER };
    match kind {
        Kind::Check => Request::Check { image: image.into(), room: 22 },
        Kind::Trim => Request::Trim { image: image.into(), room: image.len() },
        Kind::Bill => {
            let tariff = Tariff { start: 1, step: 2, taken: 3, interference: 4, least: 5 };
            Request::Bill { image: image.into(), tariff, room: bill::ANSWER }
        }
        Kind::Handover => {
            let Pair { old, new, table: points } = pair(image);
            Request::Handover { old: old.into(), new: new.into(), points }
        }
        Kind::Replay => {
            Request::Replay { image: image.into(), trace: trace(image), given: Vec::new(), rooms }
        }
        Kind::ReplayHandover => Request::ReplayHandover { across: Box::new(update(image)), rooms },
    }
}

/// The image handed over to itself in the midst of a trace.
fn update(image: &[u8]) -> Update {
    let Pair { old, new, table: points } = pair(image);
    let mut first = trace(image);
    let second = first.split_off(first.len() / 4 * 2);
    Update { old: old.into(), new: new.into(), points, first, second, given: Vec::new() }
}

/// The image handed over to itself, with lines that permit it if it is in order.
fn pair(image: &[u8]) -> Pair {
    match decode(image) {
        Ok(_) => with_itself(image),
        Err(_) => Pair { old: image.to_vec(), new: image.to_vec(), table: Vec::new() },
    }
}

/// Steps that the machine of an image permits; none for one that is not in order.
fn trace(image: &[u8]) -> Vec<u8> {
    let random = &mut Random::new(1);
    match decode(image) {
        Ok(image) => traces::permitted(random, &image.program, &[], STEPS).0,
        Err(_) => Vec::new(),
    }
}
