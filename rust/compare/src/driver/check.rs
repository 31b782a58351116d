//! One image, both checkers, buffers of several lengths.

use super::tally::Tally;
use super::Task;
use crate::proved::check_image;
use reference::checker;
use sets::generate;
use sets::generate::random::Random;
use std::fmt;

/// The verdict on an image. Code 1 is a buffer's.
pub const CHECK: Task = Task {
    compare,
    codes: &[0, 2, 3, 4, 5, 6, 7, 8, 9, 20, 21, 22, 23, 26],
    counted: "images",
    image: generate::image,
};

/// Lengths of buffers: none, one byte short, just long enough, and longer.
const ROOMS: [usize; 5] = [0, 21, 22, 23, 64];
/// The buffer is the front of this many bytes; none behind it may change.
const AROUND: usize = 96;

type Bytes = [u8; AROUND];
type Check = fn(&[u8], &mut [u8]) -> u16;

/// What a checker returned and left in the buffer and behind it.
#[derive(Clone, Copy, PartialEq, Eq)]
struct Answer {
    code: u16,
    bytes: Bytes,
}

/// Two answers that are not the same.
struct Difference {
    room: usize,
    before: Bytes,
    proved: Answer,
    independent: Answer,
}

/// Counts the code on which both checkers agree.
fn compare(image: &[u8], seed: u64, tally: &mut Tally) -> Result<(), String> {
    let code = agreed(image, seed).map_err(|found| found.to_string())?;
    tally.count(code);
    Ok(())
}

/// The code on which both checkers agree; an error if they differ for some buffer.
///
/// The code is that for a buffer that holds the record. `seed` decides what the buffers hold before.
fn agreed(image: &[u8], seed: u64) -> Result<u16, Box<Difference>> {
    let mut random = Random::new(seed);
    let mut code = 0;
    for room in ROOMS {
        let before: Bytes = std::array::from_fn(|_| random.draw() as u8);
        let proved = answer(check_image, image, room, before);
        let independent = answer(checker::check_into, image, room, before);
        if proved != independent {
            return Err(Box::new(Difference { room, before, proved, independent }));
        }
        code = proved.code;
    }
    Ok(code)
}

fn answer(check: Check, image: &[u8], room: usize, before: Bytes) -> Answer {
    let mut bytes = before;
    let code = check(image, &mut bytes[..room]);
    Answer { code, bytes }
}

impl fmt::Display for Difference {
    fn fmt(&self, out: &mut fmt::Formatter<'_>) -> fmt::Result {
        writeln!(out, "buffer of {} bytes, before: {:?}", self.room, self.before)?;
        writeln!(out, "proved: {}, {:?}", self.proved.code, self.proved.bytes)?;
        write!(out, "independent: {}, {:?}", self.independent.code, self.independent.bytes)
    }
}
