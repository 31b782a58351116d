//! A service for up to eight callers, each with its rights and its own number of billed images.

use crate::calls::{self, Crossing, Run, Tariff};
use crate::handover::HandoverError;
use crate::header::{
    ACCEPTED, BILL_BILLED, BILL_CENTS, BILL_END, BILL_NUMBERS, BILL_THREAD, CALLERS, MAY_BILL,
    MAY_CHECK, MAY_REPLAY, NO_CALLER, NO_RIGHT, RECORD_BYTES, REPLAY_REFUSED, SERVICE_BILLED,
    SERVICE_NUMBERS,
};
use crate::replay::{Buffers, Replay};
use crate::trim::Refused;
use crate::verdict::Verdict;
use std::error::Error;
use std::fmt;
use std::ops::BitOr;

/// The numbers of a service. No call changes the rights; a bill raises its caller's number of billed images.
#[derive(Clone, Debug, PartialEq, Eq)]
pub struct Service {
    numbers: [u32; SERVICE_NUMBERS],
}

/// What a caller may ask for; joined by `|`.
#[derive(Clone, Copy, Debug, Default, PartialEq, Eq, Hash)]
pub struct Rights(u8);

/// Why a caller is not served, whatever is asked.
#[derive(Clone, Copy, Debug, PartialEq, Eq, Hash)]
pub enum Denied {
    /// Callers are 1 to 8.
    NoCaller,
    NoRight,
}

/// Why a call of a service gives no answer: the caller is not served, or the call itself fails.
#[derive(Clone, Copy, Debug, PartialEq, Eq, Hash)]
pub enum ServiceError<E> {
    Denied(Denied),
    Call(E),
}

/// Why an image is not billed.
#[derive(Clone, Copy, Debug, PartialEq, Eq, Hash)]
pub enum BillError {
    /// The image is not accepted.
    Refused,
    /// The caller's number of billed images is at its end.
    End,
}

/// A bill, in cents.
#[derive(Clone, Copy, Debug, PartialEq, Eq, Hash)]
pub struct Bill {
    /// The larger of the sum and the least charge.
    pub cents: u32,
    /// How many images the caller is billed by now.
    pub billed: u32,
    /// The sums of threads 1 to 4, 0 for one that is not there.
    pub threads: [u32; BILL_NUMBERS - BILL_THREAD],
}

impl Service {
    /// Opens a service: the rights of callers 1 to 8 in order. A caller without an entry has none, and entries after the eighth are not read.
    pub fn open(rights: &[Rights]) -> Service {
        let rights: Vec<u8> = rights.iter().map(|rights| rights.0).collect();
        let mut numbers = [0; SERVICE_NUMBERS];
        calls::open_service(&rights, &mut numbers);
        Service { numbers }
    }

    /// How many images a caller is billed; none for one that is not 1 to 8.
    pub fn billed(&self, caller: usize) -> Option<u32> {
        let number = caller.checked_sub(1).filter(|&index| index < CALLERS)?;
        Some(self.numbers[SERVICE_BILLED + number])
    }

    /// Judges an image for a caller that may check.
    pub fn check(&self, caller: usize, image: &[u8]) -> Result<Verdict, Denied> {
        let mut record = [0; RECORD_BYTES];
        let code = calls::serve_check(&self.numbers, caller, image, &mut record);
        Denied::of(code).map_or(Ok(()), Err)?;
        Ok(Verdict::of_record(&record).expect("the call writes a verdict"))
    }

    /// Trims an image for a caller that may check.
    pub fn trim(&self, caller: usize, image: &[u8]) -> Result<Vec<u8>, ServiceError<Refused>> {
        let (mut out, mut written) = (vec![0; image.len()], 0);
        let code = calls::serve_trim(&self.numbers, caller, image, &mut out, &mut written);
        served(code)?;
        // A trimmed image is no longer than the image, so that there is room.
        if code != ACCEPTED {
            return Err(ServiceError::Call(Refused));
        }
        out.truncate(written);
        Ok(out)
    }

    /// Permits a handover for a caller that may check.
    pub fn check_handover(
        &self,
        caller: usize,
        old: &[u8],
        new: &[u8],
        table: &[u8],
    ) -> Result<(), ServiceError<HandoverError>> {
        let code = calls::serve_handover(&self.numbers, caller, old, new, table);
        served(code)?;
        HandoverError::of(code).map_or(Ok(()), |error| Err(ServiceError::Call(error)))
    }

    /// Replays a trace for a caller that may replay.
    pub fn replay(&self, caller: usize, run: &Run) -> Result<Replay, ServiceError<Refused>> {
        let mut buffers = Buffers::new();
        let (table, answer) = (&mut buffers.table, &mut buffers.answer);
        let code = calls::serve_replay(&self.numbers, caller, run, table, answer);
        served(code)?;
        match code {
            REPLAY_REFUSED => Err(ServiceError::Call(Refused)),
            _ => Ok(buffers.replay(code)),
        }
    }

    /// Replays two traces across a handover for a caller that may replay.
    pub fn replay_handover(
        &self,
        caller: usize,
        run: &Crossing,
    ) -> Result<Replay, ServiceError<HandoverError>> {
        let mut buffers = Buffers::new();
        let (table, answer) = (&mut buffers.table, &mut buffers.answer);
        let code = calls::serve_replay_handover(&self.numbers, caller, run, table, answer);
        served(code)?;
        match HandoverError::of(code) {
            Some(error) => Err(ServiceError::Call(error)),
            None => Ok(buffers.replay(code)),
        }
    }

    /// Bills an accepted image to a caller that may bill, and counts it.
    pub fn bill(
        &mut self,
        caller: usize,
        image: &[u8],
        tariff: &Tariff,
    ) -> Result<Bill, ServiceError<BillError>> {
        let mut answer = [0; BILL_NUMBERS];
        let code = calls::serve_bill(&mut self.numbers, caller, image, tariff, &mut answer);
        served(code)?;
        match code {
            ACCEPTED => Ok(Bill {
                cents: answer[BILL_CENTS],
                billed: answer[BILL_BILLED],
                threads: answer[BILL_THREAD..].try_into().expect("four sums"),
            }),
            BILL_END => Err(ServiceError::Call(BillError::End)),
            _ => Err(ServiceError::Call(BillError::Refused)),
        }
    }
}

impl Rights {
    pub const NONE: Rights = Rights(0);
    /// Judging, trimming, handovers.
    pub const CHECK: Rights = Rights(MAY_CHECK);
    pub const REPLAY: Rights = Rights(MAY_REPLAY);
    pub const BILL: Rights = Rights(MAY_BILL);
}

impl BitOr for Rights {
    type Output = Rights;

    fn bitor(self, other: Rights) -> Rights {
        Rights(self.0 | other.0)
    }
}

/// An error if the code says that the caller is not served.
fn served<E>(code: u16) -> Result<(), ServiceError<E>> {
    Denied::of(code).map_or(Ok(()), |denied| Err(ServiceError::Denied(denied)))
}

impl Denied {
    fn of(code: u16) -> Option<Denied> {
        match code {
            NO_CALLER => Some(Denied::NoCaller),
            NO_RIGHT => Some(Denied::NoRight),
            _ => None,
        }
    }
}

impl fmt::Display for Denied {
    fn fmt(&self, out: &mut fmt::Formatter<'_>) -> fmt::Result {
        out.write_str(match self {
            Denied::NoCaller => "there is no such caller",
            Denied::NoRight => "the caller lacks the right",
        })
    }
}

impl<E: fmt::Display> fmt::Display for ServiceError<E> {
    fn fmt(&self, out: &mut fmt::Formatter<'_>) -> fmt::Result {
        match self {
            ServiceError::Denied(denied) => denied.fmt(out),
            ServiceError::Call(error) => error.fmt(out),
        }
    }
}

impl fmt::Display for BillError {
    fn fmt(&self, out: &mut fmt::Formatter<'_>) -> fmt::Result {
        match self {
            BillError::Refused => Refused.fmt(out),
            BillError::End => out.write_str("the number of billed images is at its end"),
        }
    }
}

impl Error for Denied {}
impl<E: Error> Error for ServiceError<E> {}
impl Error for BillError {}
