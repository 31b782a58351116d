//! Stored turns of several callers, in the order in which one service answers them. In front how many bytes follow (32 bits)
//! of what is read, all parts of it in a row; then
//!
//! - what is done (8 bits, [`TurnKind`]), how many of the sixteen numbers of the service are not lent (8 bits), and by whom
//!   (32 bits);
//! - how many bytes each of the first five parts has (32 bits each); the sixth has the rest;
//! - how many bytes and how many numbers are lent (32 bits each), or the number that is set;
//! - the prices of the classes 1 to 4 and the least charge (16 bits each);
//! - the code (16 bits), how many bytes were written (32 bits, 0 but for trimming);
//! - the sixteen numbers of the service afterwards (32 bits each);
//! - all 24 numbers (32 bits each) and all 64 bytes of which the front is lent, afterwards.

use super::{all, body, length, number, take, tariff};
use crate::bill::Tariff;
use crate::service::{open_service, serve, Call, Lent, Request, Rooms, Update, CALLERS, SERVICE};

/// What is done: the service is opened, a number is set by the host, or a call is made.
#[derive(Clone, Copy, Debug, PartialEq, Eq)]
pub enum TurnKind {
    Open = 0,
    Set = 1,
    Check = 2,
    Trim = 3,
    Bill = 4,
    Handover = 5,
    Replay = 6,
    ReplayHandover = 7,
}

/// All of them, in the order of their numbers.
pub const TURN_KINDS: [TurnKind; 8] = [
    TurnKind::Open,
    TurnKind::Set,
    TurnKind::Check,
    TurnKind::Trim,
    TurnKind::Bill,
    TurnKind::Handover,
    TurnKind::Replay,
    TurnKind::ReplayHandover,
];

/// How many parts are read, numbers and bytes of which the front is lent, and what stands in these before.
pub const PARTS: usize = 6;
pub const NUMBERS: usize = 24;
pub const BYTES: usize = 64;
const NUMBER_BEFORE: u32 = 0xAAAA_AAAA;
const BYTE_BEFORE: u8 = 0xAA;

/// What is done, with all that it is given. A part that is not there is empty.
#[derive(Clone, Debug, PartialEq, Eq)]
pub struct Turn {
    pub kind: TurnKind,
    /// How many numbers of the service are lent.
    pub service: usize,
    pub caller: usize,
    pub parts: [Vec<u8>; PARTS],
    pub bytes: usize,
    pub numbers: usize,
    pub tariff: Tariff,
}

/// What it leaves, besides the service.
#[derive(Clone, Debug, PartialEq, Eq)]
pub struct Left {
    pub code: u16,
    pub written: usize,
    pub numbers: [u32; NUMBERS],
    pub bytes: [u8; BYTES],
}

/// A turn with what is stored of it.
pub struct Case {
    pub turn: Turn,
    pub left: Left,
    pub service: [u32; SERVICE],
}

impl Turn {
    /// Does it.
    pub fn take(&self, service: &mut [u32; SERVICE]) -> Left {
        let mut lent = Lent {
            bytes: vec![BYTE_BEFORE; BYTES],
            written: 0,
            bill: vec![NUMBER_BEFORE; NUMBERS],
            replay: vec![NUMBER_BEFORE as usize; NUMBERS],
        };
        let service = &mut service[..self.service];
        let code = match (self.kind, self.request()) {
            (_, Some(request)) => serve(service, &Call { caller: self.caller, request }, &mut lent),
            (TurnKind::Open, None) => open_service(&self.parts[0], service),
            (_, None) => {
                if let Some(number) = service.get_mut(CALLERS + self.caller - 1) {
                    *number = self.numbers as u32;
                }
                0
            }
        };
        let replays = matches!(self.kind, TurnKind::Replay | TurnKind::ReplayHandover);
        let numbers = match replays {
            true => lent.replay.iter().map(|&number| number as u32).collect(),
            false => lent.bill,
        };
        Left {
            code,
            written: lent.written,
            numbers: numbers.try_into().expect("as many as before"),
            bytes: lent.bytes.try_into().expect("as many as before"),
        }
    }

    /// The call; none if no caller makes it.
    fn request(&self) -> Option<Request> {
        let part = |number: usize| self.parts[number].clone();
        let image = |number: usize| part(number).into();
        let rooms = Rooms { table: self.bytes, answer: self.numbers };
        Some(match self.kind {
            TurnKind::Open | TurnKind::Set => return None,
            TurnKind::Check => Request::Check { image: image(0), room: self.bytes },
            TurnKind::Trim => Request::Trim { image: image(0), room: self.bytes },
            TurnKind::Bill => {
                Request::Bill { image: image(0), tariff: self.tariff, room: self.numbers }
            }
            TurnKind::Handover => {
                Request::Handover { old: image(0), new: image(1), points: part(2) }
            }
            TurnKind::Replay => {
                Request::Replay { image: image(0), trace: part(1), given: part(2), rooms }
            }
            TurnKind::ReplayHandover => {
                let across = Update {
                    old: image(0),
                    new: image(1),
                    points: part(2),
                    first: part(3),
                    second: part(4),
                    given: part(5),
                };
                Request::ReplayHandover { across: Box::new(across), rooms }
            }
        })
    }
}

/// The cases of a container; none if it is cut short.
pub fn cases(bytes: &[u8]) -> Option<Vec<Case>> {
    all(bytes, case)
}

fn case(bytes: &mut &[u8]) -> Option<Case> {
    let mut rest = body(bytes)?;
    let [kind, missing] = number(bytes)?.to_le_bytes();
    let kind = *TURN_KINDS.get(usize::from(kind))?;
    let service = SERVICE.checked_sub(missing.into())?;
    let caller = length(bytes)?;
    let mut parts: [Vec<u8>; PARTS] = Default::default();
    for part in &mut parts[..PARTS - 1] {
        let count = length(bytes)?;
        *part = take(&mut rest, count)?.to_vec();
    }
    parts[PARTS - 1] = rest.to_vec();
    let (lent, numbers) = (length(bytes)?, length(bytes)?);
    let tariff = tariff(bytes)?;
    let turn = Turn { kind, service, caller, parts, bytes: lent, numbers, tariff };
    let (code, written) = (number(bytes)?, length(bytes)?);
    let service = longs(bytes)?;
    let numbers = longs(bytes)?;
    let bytes = take(bytes, BYTES)?.try_into().ok()?;
    Some(Case { turn, left: Left { code, written, numbers, bytes }, service })
}

/// So many 32-bit numbers from the front.
fn longs<const N: usize>(bytes: &mut &[u8]) -> Option<[u32; N]> {
    let mut numbers = [0; N];
    for number in &mut numbers {
        *number = u32::try_from(length(bytes)?).ok()?;
    }
    Some(numbers)
}

/// For each case of a container whether it leaves the same still, from a service of zeros on.
pub fn judged(bytes: &[u8]) -> Option<Vec<bool>> {
    let mut service = [0; SERVICE];
    let mut same = Vec::new();
    for case in cases(bytes)? {
        let left = case.turn.take(&mut service);
        same.push((left, service) == (case.left, case.service));
        // So that a slip is told where it is made.
        service = case.service;
    }
    Some(same)
}
