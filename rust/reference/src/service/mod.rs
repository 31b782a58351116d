//! One service for up to eight callers, each with rights of its own and a number of billed images of its own.
//!
//! A service is sixteen numbers: the rights of callers 1 to 8, then their numbers.

mod call;

pub use call::{serve, Call, Kind, Lent, Request, Rooms, Update};

use crate::bill::{self, bill, Tariff};
use crate::checker::check_into;
use crate::handover::{check_handover, replay_handover, Across};
use crate::replay::{self, replay};
use crate::trim::{trim_into, Answer};

pub const CALLERS: usize = 8;
/// How many numbers a service has.
pub const SERVICE: usize = 2 * CALLERS;

/// The service has fewer than [`SERVICE`] numbers; nothing is written.
pub const SERVICE_TOO_SHORT: u16 = 1;
/// The caller is not one of 1 to 8.
pub const NO_SUCH_CALLER: u16 = 35;
/// The caller lacks the right.
pub const NO_RIGHT: u16 = 36;

/// What a caller may be permitted, as a bit of its rights.
#[derive(Clone, Copy, Debug, PartialEq, Eq)]
pub enum Right {
    /// Also trimming, and permitting a handover.
    Check = 1,
    /// Also across a handover.
    Replay = 2,
    Bill = 4,
}

/// How many choices of rights there are: rights are given modulo this.
const CHOICES: u8 = 8;

/// Opens a service with a byte of rights for each caller, none for those that are missing; all numbers are 0.
pub fn open_service(rights: &[u8], service: &mut [u32]) -> u16 {
    let Some(service) = service.get_mut(..SERVICE) else {
        return SERVICE_TOO_SHORT;
    };
    service.fill(0);
    for (place, given) in service[..CALLERS].iter_mut().zip(rights) {
        *place = u32::from(given % CHOICES);
    }
    0
}

/// 0 if the caller is there and has the right, else the code with which the call ends.
pub fn admitted(service: &[u32], caller: usize, right: Right) -> u16 {
    if !(1..=CALLERS).contains(&caller) {
        return NO_SUCH_CALLER;
    }
    let rights = service.get(caller - 1).copied().unwrap_or(0);
    if rights & right as u32 == 0 {
        return NO_RIGHT;
    }
    0
}

/// The verdict on an image, if the caller may ask for it.
pub fn serve_check(service: &[u32], caller: usize, image: &[u8], out: &mut [u8]) -> u16 {
    match admitted(service, caller, Right::Check) {
        0 => check_into(image, out),
        refused => refused,
    }
}

/// An image trimmed, if the caller may ask for it.
pub fn serve_trim(service: &[u32], caller: usize, image: &[u8], out: &mut [u8]) -> Answer {
    match admitted(service, caller, Right::Check) {
        0 => trim_into(image, out),
        code => Answer { code, length: 0 },
    }
}

/// Whether a handover is permitted, if the caller may ask for it.
pub fn serve_handover(service: &[u32], caller: usize, old: &[u8], new: &[u8], table: &[u8]) -> u16 {
    match admitted(service, caller, Right::Check) {
        0 => check_handover(old, new, table),
        refused => refused,
    }
}

/// What a replay is given besides the buffers.
#[derive(Clone, Copy, Debug)]
pub struct Run<'a> {
    pub image: &'a [u8],
    pub trace: &'a [u8],
    pub given: &'a [u8],
}

/// The replay of a trace, if the caller may ask for it.
pub fn serve_replay(
    service: &[u32],
    caller: usize,
    run: &Run,
    table: &mut [u8],
    answer: &mut [usize],
) -> u16 {
    match admitted(service, caller, Right::Replay) {
        0 => replay(run.image, run.trace, run.given, table, answer),
        refused => cleared(answer, replay::ANSWER, refused),
    }
}

/// The replay across a handover, if the caller may ask for it.
pub fn serve_replay_handover(
    service: &[u32],
    caller: usize,
    run: &Across,
    table: &mut [u8],
    answer: &mut [usize],
) -> u16 {
    match admitted(service, caller, Right::Replay) {
        0 => replay_handover(run, table, answer),
        refused => cleared(answer, replay::ANSWER, refused),
    }
}

/// The bill of an image, counted by the caller's own number.
pub fn serve_bill(
    service: &mut [u32],
    caller: usize,
    image: &[u8],
    tariff: &Tariff,
    answer: &mut [u32],
) -> u16 {
    let refused = admitted(service, caller, Right::Bill);
    if refused != 0 {
        return cleared(answer, bill::ANSWER, refused);
    }
    let Some(number) = service.get_mut(CALLERS + caller - 1) else {
        return bill::ANSWER_TOO_SHORT;
    };
    let bill = bill(image, tariff, *number);
    let code = bill.put(answer);
    if code == 0 {
        *number = bill.billed;
    }
    code
}

/// Zeros for an answer of so many numbers, if it has room, and the code.
fn cleared<T: Default + Clone>(answer: &mut [T], count: usize, code: u16) -> u16 {
    if let Some(front) = answer.get_mut(..count) {
        front.fill(T::default());
    }
    code
}

#[cfg(test)]
mod tests;
