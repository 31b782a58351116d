//! Traces for replay, with registers given and buffers lent: steps that the machine permits, then perhaps one that it
//! refuses, on programs most of which go round and round.

use super::random::Random;
use super::{clutter, harness, programs};
use reference::checker::limits;
use reference::formula::{Test, Value};
use reference::image::{Access, Header, Instruction, Program, Thread};
use reference::machine::{take, State, Step};
use reference::replay::{start, ANSWER, MOST_WRITES, WRITE_BYTES};
use std::rc::Rc;

/// What a call is given besides the image.
#[derive(Clone, Debug, Default, PartialEq, Eq)]
pub struct Call {
    pub trace: Vec<u8>,
    /// A byte for each register.
    pub given: Vec<u8>,
    /// How many bytes of table are lent.
    pub table: usize,
    /// How many numbers of answer are lent.
    pub numbers: usize,
}

/// The image of a seed: most often a program that is accepted whatever it does, else one of those that are trimmed.
pub fn image(seed: u64) -> Vec<u8> {
    let random = &mut Random::new(seed);
    if random.chance(25) {
        return clutter::image(random.draw());
    }
    harness::plan(program(random)).bytes()
}

/// A program, most of whose threads begin again when they have come to their end.
pub fn program(random: &mut Random) -> Program {
    let header = programs::header(random);
    let most = if random.chance(5) { limits::POINTS } else { 6 };
    let threads = (1..=header.counts.threads).map(|thread| {
        let points = random.between(1, most);
        let mut code = programs::thread(random, &header, thread, points);
        if points > 1 && random.chance(75) {
            let again = Test::truth().into();
            code[usize::from(points) - 2] = Instruction::Branch { test: again, target: 0 };
        }
        code
    });
    let threads = threads.collect();
    harness::program(header, threads)
}

/// A thread that writes a word again and again, by a store or by a fetch-add.
pub fn repeating(word: u8, register: Option<u8>) -> Thread {
    let value = Rc::new(Value::Constant(1));
    let access = match register {
        Some(register) => Access::FetchAdd { register, word, value },
        None => Access::Store { word, value, releasing: false },
    };
    vec![access.into(), Instruction::Branch { test: Test::truth().into(), target: 0 }]
}

/// A call for a program; without one, for an image that is not accepted.
pub fn call(random: &mut Random, program: Option<&Program>) -> Call {
    let given = (0..random.below(21)).map(|_| random.draw() as u8).collect::<Vec<u8>>();
    let numbers = if random.chance(95) { ANSWER + random.below(4) } else { random.below(ANSWER) };
    let table = table(random);
    let trace = match program {
        Some(program) => trace(random, program, start(&program.header, &given)),
        None => noise(random, 8),
    };
    Call { trace, given, table, numbers }
}

/// Bytes of a table: of few entries, of about as many as are used, or of any number, with a ragged tail or none.
fn table(random: &mut Random) -> usize {
    let entries = match random.below(6) {
        0 => random.below(10),
        1 => MOST_WRITES - 2 + random.below(5),
        2 => random.below(MOST_WRITES + 2),
        3 => 12 + random.below(20),
        _ => MOST_WRITES,
    };
    let tail = if random.chance(60) { 0 } else { random.below(WRITE_BYTES) };
    entries * WRITE_BYTES + tail
}

/// Permitted steps from a state, then perhaps one that is not, and perhaps bytes that are not looked at then.
pub fn trace(random: &mut Random, program: &Program, state: State) -> Vec<u8> {
    let most = match random.below(10) {
        0 => 0,
        1..=5 => 1 + random.below(12),
        6..=8 => 20 + random.below(60),
        _ => 100 + random.below(150),
    };
    let (mut trace, state) = permitted_from(random, &program.threads, state, most);
    if random.chance(40) {
        trace.extend(stray(random, &program.header, &state));
        let behind = random.below(4);
        trace.extend(noise(random, behind));
    }
    if random.chance(15) {
        trace.push(random.below(6) as u8);
    }
    trace
}

/// Steps that the machine permits, at most so many, and the state that they lead to. How many writes there are room for
/// is not asked.
pub fn permitted(
    random: &mut Random,
    program: &Program,
    given: &[u8],
    most: usize,
) -> (Vec<u8>, State) {
    permitted_from(random, &program.threads, start(&program.header, given), most)
}

/// The same from any state.
pub fn permitted_from(
    random: &mut Random,
    threads: &[Thread],
    mut state: State,
    most: usize,
) -> (Vec<u8>, State) {
    let late = random.below(100);
    let mut trace = Vec::new();
    while trace.len() < 2 * most {
        let Some((step, next)) = one_step(random, threads, &state, late) else {
            break;
        };
        trace.extend([step.thread, step.position as u8]);
        state = next;
    }
    (trace, state)
}

/// A step of a thread that is not at its last point, `late` percent of them at the last write of the row; none if no
/// thread can act.
fn one_step(
    random: &mut Random,
    threads: &[Thread],
    state: &State,
    late: usize,
) -> Option<(Step, State)> {
    let acts = |thread: &u8| {
        let index = usize::from(*thread) - 1;
        usize::from(state.points[index]) < threads[index].len()
    };
    let able: Vec<u8> = (1..=threads.len() as u8).filter(acts).collect();
    if able.is_empty() {
        return None;
    }
    let thread = *random.pick(&able);
    let index = usize::from(thread) - 1;
    let positions = match threads[index][usize::from(state.points[index])].word() {
        Some(word) => usize::from(state.view(thread).at(word))..state.row(word).len(),
        None => 0..1,
    };
    // The last write of a row is never covered.
    let mut position = positions.end - 1;
    if !random.chance(late) {
        position = positions.start + random.below(positions.len());
    }
    let tried = [position, positions.end - 1].map(|position| Step { thread, position });
    tried.into_iter().find_map(|step| Some((step, take(threads, state, step)?)))
}

/// A step that most often is refused: an absent thread, any position, one before the thread's own, one past the row.
fn stray(random: &mut Random, header: &Header, state: &State) -> [u8; 2] {
    let threads = header.counts.threads;
    let thread = random.between(1, threads);
    let word = random.between(1, header.counts.words);
    let (own, end) = (state.view(thread).at(word), state.row(word).len() as u8);
    match random.below(7) {
        0 => [*random.pick(&[0, threads + 1, 5, 255]), 0],
        1 => [thread, own.wrapping_sub(1)],
        2 => [thread, end],
        3 => [thread, random.below(usize::from(end)) as u8],
        4 => [thread, *random.pick(&[1, 63, 64, 255])],
        5 => [thread, 0],
        _ => [random.below(6) as u8, random.draw() as u8],
    }
}

/// Any bytes, at most so many.
pub fn noise(random: &mut Random, most: usize) -> Vec<u8> {
    (0..random.below(most + 1)).map(|_| random.draw() as u8).collect()
}
