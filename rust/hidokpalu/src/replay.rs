//! A trace replayed on the machine of an accepted image.

use crate::calls::replay_trace;
use crate::header::{
    REPLAY_NUMBERS, REPLAY_POINT, REPLAY_REFUSED, REPLAY_REGISTER, REPLAY_STEPS, STEP_PICK,
    STEP_ROOM, STEP_THREAD, WRITES, WRITE_BYTES, WRITE_COVERED, WRITE_RELEASING, WRITE_VALUE,
    WRITE_VIEW,
};
use crate::trim::Refused;

/// How far a replay came, and the state that it reached.
#[derive(Clone, Debug, PartialEq, Eq)]
pub struct Replay {
    /// Why the next step is refused; none at the end of the trace.
    pub refusal: Option<StepRefusal>,
    pub steps: usize,
    /// The points of threads 1 to 4, 0 for one that is not there.
    pub points: [usize; REPLAY_REGISTER - REPLAY_POINT],
    /// Registers 1 to 16, 0 for one that is not there.
    pub registers: [usize; REPLAY_NUMBERS - REPLAY_REGISTER],
    /// The writes, word by word, each row in its modification order. None if the start writes have no room.
    pub writes: Vec<Write>,
}

/// Why a step is refused.
#[derive(Clone, Copy, Debug, PartialEq, Eq, Hash)]
#[repr(u16)]
pub enum StepRefusal {
    /// Its thread is absent or at its last point, or it is half a step.
    Thread = STEP_THREAD,
    /// The position that it picks is not permitted.
    Pick = STEP_PICK,
    /// No entry is left for a write.
    Room = STEP_ROOM,
}

/// A write in shared memory.
#[derive(Clone, Copy, Debug, PartialEq, Eq, Hash)]
pub struct Write {
    pub value: u8,
    pub releasing: bool,
    pub covered: bool,
    /// A position in the row of words 1 to 8, from 0; 0 for one that is not there.
    pub view: [u8; WRITE_BYTES - WRITE_VIEW],
}

/// Replays a trace: two bytes for a step, its thread and the position that it picks. `given` has a byte for each register whose mark is 0.
pub fn replay(image: &[u8], trace: &[u8], given: &[u8]) -> Result<Replay, Refused> {
    let mut buffers = Buffers::new();
    let code = replay_trace(image, trace, given, &mut buffers.table, &mut buffers.answer);
    if code == REPLAY_REFUSED {
        return Err(Refused);
    }
    Ok(buffers.replay(code))
}

/// What a replay writes to.
pub(crate) struct Buffers {
    pub(crate) table: [u8; WRITES * WRITE_BYTES],
    pub(crate) answer: [usize; REPLAY_NUMBERS],
}

impl Buffers {
    /// An entry that the call does not use stays as it is, and no write has such a mark.
    const UNUSED: u8 = u8::MAX;

    pub(crate) fn new() -> Buffers {
        Buffers { table: [Buffers::UNUSED; WRITES * WRITE_BYTES], answer: [0; REPLAY_NUMBERS] }
    }

    /// What the buffers hold after a call with a code that is a step's, or 0.
    pub(crate) fn replay(&self, code: u16) -> Replay {
        let (points, registers) =
            self.answer[REPLAY_POINT..].split_at(REPLAY_REGISTER - REPLAY_POINT);
        let entries = self.table.chunks_exact(WRITE_BYTES);
        let used = entries.take_while(|entry| entry[WRITE_RELEASING] != Buffers::UNUSED);
        Replay {
            refusal: StepRefusal::of(code),
            steps: self.answer[REPLAY_STEPS],
            points: points.try_into().expect("four points"),
            registers: registers.try_into().expect("sixteen registers"),
            writes: used.map(Write::of).collect(),
        }
    }
}

impl Write {
    fn of(entry: &[u8]) -> Write {
        Write {
            value: entry[WRITE_VALUE],
            releasing: entry[WRITE_RELEASING] == 1,
            covered: entry[WRITE_COVERED] == 1,
            view: entry[WRITE_VIEW..].try_into().expect("eight positions"),
        }
    }
}

impl StepRefusal {
    const ALL: [StepRefusal; 3] = [StepRefusal::Thread, StepRefusal::Pick, StepRefusal::Room];

    fn of(code: u16) -> Option<StepRefusal> {
        StepRefusal::ALL.into_iter().find(|&refusal| refusal as u16 == code)
    }
}
