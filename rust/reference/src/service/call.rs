//! Calls as data, so that a list of them can be served one after another.

use super::{
    serve_bill, serve_check, serve_handover, serve_replay, serve_replay_handover, serve_trim, Run,
};
use crate::bill::Tariff;
use crate::handover::{Across, Traces};
use std::rc::Rc;

/// What is asked, and how much room is lent for the reply.
#[derive(Clone, Debug, PartialEq, Eq)]
pub enum Request {
    /// A verdict, with so many bytes for its record.
    Check { image: Rc<[u8]>, room: usize },
    /// An image trimmed, with so many bytes for it.
    Trim { image: Rc<[u8]>, room: usize },
    /// A bill, with so many numbers for it.
    Bill { image: Rc<[u8]>, tariff: Tariff, room: usize },
    /// Whether a handover is permitted.
    Handover { old: Rc<[u8]>, new: Rc<[u8]>, points: Vec<u8> },
    /// A replay, with so much for its table and its answer.
    Replay { image: Rc<[u8]>, trace: Vec<u8>, given: Vec<u8>, rooms: Rooms },
    /// A replay across a handover, likewise.
    ReplayHandover { across: Box<Update>, rooms: Rooms },
}

/// What a request asks for.
#[derive(Clone, Copy, Debug, PartialEq, Eq, PartialOrd, Ord)]
pub enum Kind {
    Check,
    Trim,
    Bill,
    Handover,
    Replay,
    ReplayHandover,
}

impl Request {
    pub fn kind(&self) -> Kind {
        match self {
            Request::Check { .. } => Kind::Check,
            Request::Trim { .. } => Kind::Trim,
            Request::Bill { .. } => Kind::Bill,
            Request::Handover { .. } => Kind::Handover,
            Request::Replay { .. } => Kind::Replay,
            Request::ReplayHandover { .. } => Kind::ReplayHandover,
        }
    }
}

/// How many bytes are lent for a table of writes, and how many numbers for an answer.
#[derive(Clone, Copy, Debug, PartialEq, Eq)]
pub struct Rooms {
    pub table: usize,
    pub answer: usize,
}

/// Two images, the table of points between them, and a trace for each.
#[derive(Clone, Debug, PartialEq, Eq)]
pub struct Update {
    pub old: Rc<[u8]>,
    pub new: Rc<[u8]>,
    pub points: Vec<u8>,
    pub first: Vec<u8>,
    pub second: Vec<u8>,
    pub given: Vec<u8>,
}

impl Update {
    /// The same, borrowed.
    pub fn call(&self) -> Across<'_> {
        let traces = Traces { first: &self.first, second: &self.second, given: &self.given };
        Across { old: &self.old, new: &self.new, points: &self.points, traces }
    }
}

/// A request, and who makes it.
#[derive(Clone, Debug, PartialEq, Eq)]
pub struct Call {
    pub caller: usize,
    pub request: Request,
}

/// All that a call may write besides the service. A request has the front of what it asks room for; what it does not
/// name stays.
#[derive(Clone, Debug, PartialEq, Eq)]
pub struct Lent {
    /// A verdict's record, a trimmed image or a table of writes.
    pub bytes: Vec<u8>,
    /// How many bytes were written.
    pub written: usize,
    /// A bill.
    pub bill: Vec<u32>,
    /// Steps, points and registers of a replay.
    pub replay: Vec<usize>,
}

/// Serves a call. What is lent has the room that the request names.
pub fn serve(service: &mut [u32], call: &Call, lent: &mut Lent) -> u16 {
    let caller = call.caller;
    match &call.request {
        Request::Check { image, room } => {
            serve_check(service, caller, image, &mut lent.bytes[..*room])
        }
        Request::Trim { image, room } => {
            let answer = serve_trim(service, caller, image, &mut lent.bytes[..*room]);
            lent.written = answer.length;
            answer.code
        }
        Request::Bill { image, tariff, room } => {
            serve_bill(service, caller, image, tariff, &mut lent.bill[..*room])
        }
        Request::Handover { old, new, points } => serve_handover(service, caller, old, new, points),
        Request::Replay { image, trace, given, rooms } => {
            let (table, answer) = lent.for_replay(rooms);
            serve_replay(service, caller, &Run { image, trace, given }, table, answer)
        }
        Request::ReplayHandover { across, rooms } => {
            let (table, answer) = lent.for_replay(rooms);
            serve_replay_handover(service, caller, &across.call(), table, answer)
        }
    }
}

impl Lent {
    /// Room for a table of writes and for an answer.
    pub fn for_replay(&mut self, rooms: &Rooms) -> (&mut [u8], &mut [usize]) {
        (&mut self.bytes[..rooms.table], &mut self.replay[..rooms.answer])
    }
}
