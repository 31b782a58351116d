//! Handovers: new code without a restart.

use crate::calls::{self, Crossing};
use crate::header::{TABLE, UNLIKE, UNSERVED};
use crate::replay::{Buffers, Replay};
use std::error::Error;
use std::fmt;

/// Why a handover is not permitted.
#[derive(Clone, Copy, Debug, PartialEq, Eq, Hash)]
#[repr(u16)]
pub enum HandoverError {
    /// An image is not accepted, or the two are unlike.
    Unlike = UNLIKE,
    /// The table is too short, too long or somewhere out of range.
    Table = TABLE,
    /// A named line does not serve.
    Unserved = UNSERVED,
}

/// Permits a handover from the old image to the new one by a table, or says why not.
pub fn check_handover(old: &[u8], new: &[u8], table: &[u8]) -> Result<(), HandoverError> {
    HandoverError::of(calls::check_handover(old, new, table)).map_or(Ok(()), Err)
}

/// Replays two traces with the handover between them.
pub fn replay_handover(run: &Crossing) -> Result<Replay, HandoverError> {
    let mut buffers = Buffers::new();
    let code = calls::replay_handover(run, &mut buffers.table, &mut buffers.answer);
    match HandoverError::of(code) {
        Some(error) => Err(error),
        None => Ok(buffers.replay(code)),
    }
}

impl HandoverError {
    const ALL: [HandoverError; 3] =
        [HandoverError::Unlike, HandoverError::Table, HandoverError::Unserved];

    pub(crate) fn of(code: u16) -> Option<HandoverError> {
        HandoverError::ALL.into_iter().find(|&error| error as u16 == code)
    }
}

impl fmt::Display for HandoverError {
    fn fmt(&self, out: &mut fmt::Formatter<'_>) -> fmt::Result {
        out.write_str(match self {
            HandoverError::Unlike => "an image is not accepted, or the two are unlike",
            HandoverError::Table => "the table is too short, too long or somewhere out of range",
            HandoverError::Unserved => "a line of the table does not serve",
        })
    }
}

impl Error for HandoverError {}
