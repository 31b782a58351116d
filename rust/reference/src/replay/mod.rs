//! Replay of a crash trace: the machine runs the steps that were noted, each two bytes, thread and position.

use crate::checker::accepted;
use crate::image::{Header, Program, Thread};
use crate::machine::{take, State, Step, Write};

/// The answer has fewer than [`ANSWER`] numbers; nothing is written.
pub const ANSWER_TOO_SHORT: u16 = 1;
/// The image is not accepted.
pub const NOT_ACCEPTED: u16 = 24;
/// The thread is absent or at its last point, or there is half a step.
pub const NO_STEP: u16 = 27;
/// The position is absent or not allowed, or other than 0 where nothing is picked.
pub const NOT_PERMITTED: u16 = 28;
/// No entry is left for a write.
pub const NO_ENTRY: u16 = 29;

const THREADS: usize = 4;
const REGISTERS: usize = 16;
/// How many numbers an answer has: steps taken, a point for each thread, a value for each register.
pub const ANSWER: usize = 1 + THREADS + REGISTERS;
/// The bytes of an entry: value, releasing, covered, a position for each of eight words.
pub const WRITE_BYTES: usize = 11;
/// Entries behind these are never used.
pub const MOST_WRITES: usize = 64;

/// What a call answers, and the writes that the table holds afterwards. What is not there counts as 0.
#[derive(Clone, Debug, Default, PartialEq, Eq)]
pub struct Replay {
    pub code: u16,
    /// How many steps were taken; a refused one is none.
    pub steps: usize,
    pub points: Vec<u8>,
    pub registers: Vec<u8>,
    /// The writes word by word in row order.
    pub writes: Vec<Write>,
}

/// Replays the trace and writes table and answer, or neither if the answer is too short. Entries that hold no write and
/// numbers behind the answer stay.
pub fn replay(
    image: &[u8],
    trace: &[u8],
    given: &[u8],
    table: &mut [u8],
    answer: &mut [usize],
) -> u16 {
    let program = accepted(image).map(|image| image.program);
    replayed(program.as_ref(), trace, given, room(table.len())).put(table, answer)
}

/// How many writes a table of so many bytes holds: whole entries, at most 64.
pub fn room(bytes: usize) -> usize {
    (bytes / WRITE_BYTES).min(MOST_WRITES)
}

/// The replay of an accepted image's program with room for so many writes; of none, an error.
pub fn replayed(program: Option<&Program>, trace: &[u8], given: &[u8], room: usize) -> Replay {
    let Some(program) = program else {
        return Replay { code: NOT_ACCEPTED, ..Replay::default() };
    };
    let mut state = start(&program.header, given);
    if room < count_writes(&state) {
        return Replay { writes: Vec::new(), ..Replay::of(NO_ENTRY, 0, &state) };
    }
    let (code, steps) = run(&program.threads, &mut state, trace, room);
    Replay::of(code, steps, &state)
}

/// The start state. An open register holds its given byte modulo the range, 0 if there is none.
pub fn start(header: &Header, given: &[u8]) -> State {
    let mut state = State::start(header);
    for (index, register) in state.registers.iter_mut().enumerate() {
        if header.marks[index] == 0 {
            *register = given.get(index).map_or(0, |byte| byte % header.counts.range);
        }
    }
    state
}

/// Takes the steps up to the first that is refused; the code, 0 if none is, and how many were taken.
pub fn run(threads: &[Thread], state: &mut State, trace: &[u8], room: usize) -> (u16, usize) {
    for (taken, bytes) in trace.chunks(2).enumerate() {
        match after(threads, state, bytes, room) {
            Ok(next) => *state = next,
            Err(code) => return (code, taken),
        }
    }
    (0, trace.len() / 2)
}

/// The state after a step, or the lowest code for which it is refused.
fn after(threads: &[Thread], state: &State, step: &[u8], room: usize) -> Result<State, u16> {
    let &[thread, position] = step else {
        return Err(NO_STEP);
    };
    if !can_act(threads, state, thread) {
        return Err(NO_STEP);
    }
    let step = Step { thread, position: position.into() };
    let next = take(threads, state, step).ok_or(NOT_PERMITTED)?;
    if count_writes(&next) > room {
        return Err(NO_ENTRY);
    }
    Ok(next)
}

/// Whether the thread is there and not at its last point.
fn can_act(threads: &[Thread], state: &State, thread: u8) -> bool {
    let Some(index) = usize::from(thread).checked_sub(1) else {
        return false;
    };
    threads.get(index).is_some_and(|code| usize::from(state.points[index]) < code.len())
}

fn count_writes(state: &State) -> usize {
    state.rows.iter().map(Vec::len).sum()
}

impl Replay {
    /// What is said of the state reached.
    pub fn of(code: u16, steps: usize, state: &State) -> Replay {
        let (points, registers) = (state.points.clone(), state.registers.clone());
        Replay { code, steps, points, registers, writes: state.rows.concat() }
    }

    /// Steps, points and registers, in this order.
    pub fn numbers(&self) -> [usize; ANSWER] {
        let mut numbers = [0; ANSWER];
        numbers[0] = self.steps;
        let filled = |part: &mut [usize], values: &[u8]| {
            part.iter_mut().zip(values).for_each(|(number, &value)| *number = value.into());
        };
        filled(&mut numbers[1..1 + THREADS], &self.points);
        filled(&mut numbers[1 + THREADS..], &self.registers);
        numbers
    }

    /// Writes entries and numbers if the numbers have room, and answers with the code.
    pub fn put(&self, table: &mut [u8], answer: &mut [usize]) -> u16 {
        let Some(front) = answer.get_mut(..ANSWER) else {
            return ANSWER_TOO_SHORT;
        };
        front.copy_from_slice(&self.numbers());
        for (entry, write) in table.chunks_exact_mut(WRITE_BYTES).zip(&self.writes) {
            entry.copy_from_slice(&entry_bytes(write));
        }
        self.code
    }
}

/// The bytes of an entry.
pub fn entry_bytes(write: &Write) -> [u8; WRITE_BYTES] {
    let mut bytes = [0; WRITE_BYTES];
    bytes[..3].copy_from_slice(&[write.value, write.releasing.into(), write.covered.into()]);
    bytes[3..].copy_from_slice(&write.stored.0);
    bytes
}

#[cfg(test)]
mod tests;
