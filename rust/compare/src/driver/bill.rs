//! One image, both ways of billing, tariffs, numbers and answers of several lengths.

use super::tally::Tally;
use super::Task;
use crate::proved::bill_into;
use reference::bill::{charge, Tariff, ANSWER};
use reference::checker::accepted;
use reference::image::Thread;
use sets::generate::random::Random;
use sets::generate::{clutter, tariffs};

/// The bill of an image.
pub const BILL: Task =
    Task { compare, codes: &[0, 1, 30, 31], counted: "calls", image: clutter::image };

/// So many calls for an image.
const CALLS: usize = 8;
/// The answer is the front of so many numbers; none behind it may change.
const AROUND: usize = ANSWER + 6;
/// An answer that has room is chosen so often, in percent.
const WITH_ROOM: usize = 90;

/// What a call is given besides the image.
#[derive(Debug)]
struct Call {
    tariff: Tariff,
    billed: u32,
    room: usize,
}

fn compare(image: &[u8], seed: u64, tally: &mut Tally) -> Result<(), String> {
    let program = accepted(image).map(|image| image.program.threads);
    let random = &mut Random::new(seed);
    for _ in 0..CALLS {
        let call = call(random, program.as_deref());
        let before: [u32; AROUND] = std::array::from_fn(|_| random.draw() as u32);
        let (mut proved, mut independent) = (before, before);
        let by_proof = bill_into(image, &call.tariff, call.billed, &mut proved[..call.room]);
        let bill = charge(program.as_deref(), &call.tariff, call.billed);
        let by_other = bill.put(&mut independent[..call.room]);
        if (by_proof, proved) != (by_other, independent) {
            return Err(format!(
                "{call:?}, before: {before:?}\nproved: {by_proof}, {proved:?}\nindependent: {by_other}, {independent:?}"
            ));
        }
        tally.count(by_proof);
    }
    Ok(())
}

fn call(random: &mut Random, program: Option<&[Thread]>) -> Call {
    let tariff = tariffs::tariff(random, program);
    let billed = tariffs::billed(random);
    let room = match random.chance(WITH_ROOM) {
        true => ANSWER + random.below(AROUND - ANSWER),
        false => random.below(ANSWER),
    };
    Call { tariff, billed, room }
}
