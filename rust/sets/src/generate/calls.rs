//! Calls of several callers: a service and what its callers ask, one after another.

use super::random::Random;
use super::{clutter, handovers, image as any_image, tariffs, traces};
use crate::examples::message_passing;
use reference::bill::ANSWER;
use reference::checker::accepted;
use reference::checker::verdict::RECORD_BYTES;
use reference::image::Program;
use reference::service::{Call, Kind, Request, Rooms, Update, CALLERS, SERVICE};
use reference::trim::trimmed;
use std::rc::Rc;

/// A service before its opening, and the calls that follow.
pub struct Session {
    /// What stands in the numbers before; the service is their front.
    pub before: [u32; AROUND],
    /// How many numbers the service has.
    pub lent: usize,
    pub rights: Vec<u8>,
    /// Numbers of billed images as the host sets them after the opening, by caller.
    pub set: Vec<(usize, u32)>,
    pub calls: Vec<Call>,
}

/// A service is the front of so many numbers; none behind it may change.
pub const AROUND: usize = SERVICE + 4;
/// So many calls in a session.
pub const CALLS: usize = 40;
/// A buffer that has room is chosen so often, in percent.
const WITH_ROOM: usize = 85;
/// How much longer than what is written a buffer may be.
pub const SPARE: usize = 12;
/// The longest image of a session.
const LONGEST: usize = 40_000;

/// An image, and what decides how much room a call with it wants.
struct Subject {
    image: Rc<[u8]>,
    program: Option<Program>,
    /// Bytes of the image trimmed, a few if it is not accepted.
    trimmed: usize,
}

impl Subject {
    fn of(image: Vec<u8>) -> Subject {
        let program = accepted(&image).map(|image| image.program);
        let trimmed = trimmed(&image).map_or(40, |bytes| bytes.len());
        Subject { image: image.into(), program, trimmed }
    }
}

/// Two images, and a table from the points of one to those of the other.
struct Change {
    old: Subject,
    new: Subject,
    points: Vec<u8>,
}

/// The session of a seed, with calls of these kinds.
pub fn session(seed: u64, kinds: &[Kind]) -> Session {
    let random = &mut Random::new(seed);
    let before = std::array::from_fn(|_| random.draw() as u32);
    let lent = match random.below(12) {
        0 => random.below(SERVICE),
        1 => SERVICE + random.below(AROUND - SERVICE + 1),
        _ => SERVICE,
    };
    // Mostly a byte for each caller.
    let given = if random.chance(80) { CALLERS } else { random.below(CALLERS + 3) };
    let rights = (0..given).map(|_| rights_of_one(random)).collect();
    let set = (1..=CALLERS).filter_map(|caller| {
        let number = tariffs::billed(random);
        random.chance(25).then_some((caller, number))
    });
    let set = set.collect();
    let calls = calls(random, kinds);
    Session { before, lent, rights, set, calls }
}

fn rights_of_one(random: &mut Random) -> u8 {
    let any = random.draw() as u8;
    *random.pick(&[7, 7, 7, 7, 7, 7, 1, 2, 4, 3, 5, 6, 0, any])
}

fn calls(random: &mut Random, kinds: &[Kind]) -> Vec<Call> {
    let mut images = vec![message_passing().bytes(), any_image(random.draw())];
    images.extend((0..2).map(|_| clutter::image(random.draw())));
    images.extend((0..2).map(|_| traces::image(random.draw())));
    let short = images.into_iter().filter(|image| image.len() <= LONGEST);
    let subjects: Vec<Subject> = short.map(Subject::of).collect();
    let wanted = if kinds.contains(&Kind::Handover) { 2 } else { 0 };
    let changes: Vec<Change> = (0..wanted).map(|_| change(random)).collect();
    let mut calls = Vec::new();
    for _ in 0..CALLS {
        let request = match *random.pick(kinds) {
            kind @ (Kind::Handover | Kind::ReplayHandover) => {
                let number = random.below(changes.len());
                update(random, &changes[number], kind)
            }
            kind => {
                let number = random.below(subjects.len());
                request(random, &subjects[number], kind)
            }
        };
        calls.push(Call { caller: caller(random), request });
    }
    calls
}

fn change(random: &mut Random) -> Change {
    let handovers::Pair { old, new, table } = handovers::pair(random.draw());
    Change { old: Subject::of(old), new: Subject::of(new), points: table }
}

/// Mostly one of the eight; else none, one just behind them, or one that has their low bits.
fn caller(random: &mut Random) -> usize {
    match random.below(16) {
        0 => 0,
        1 => 9 + random.below(292),
        2 => *random.pick(&[9, 256, 257, 264, 65_537, (1 << 32) + 1, usize::MAX]),
        _ => 1 + random.below(CALLERS),
    }
}

/// A request about one image.
fn request(random: &mut Random, subject: &Subject, kind: Kind) -> Request {
    let (image, program) = (subject.image.clone(), subject.program.as_ref());
    match kind {
        Kind::Check => Request::Check { image, room: room(random, RECORD_BYTES) },
        Kind::Trim => Request::Trim { image, room: room(random, subject.trimmed) },
        Kind::Bill => {
            let tariff = tariffs::tariff(random, program.map(|program| &program.threads[..]));
            Request::Bill { image, tariff, room: room(random, ANSWER) }
        }
        _ => {
            let traces::Call { trace, given, table, numbers } = traces::call(random, program);
            Request::Replay { image, trace, given, rooms: Rooms { table, answer: numbers } }
        }
    }
}

/// A request about two images.
fn update(random: &mut Random, change: &Change, kind: Kind) -> Request {
    let Change { old, new, points } = change;
    let points = points.clone();
    if kind == Kind::Handover {
        return Request::Handover { old: old.image.clone(), new: new.image.clone(), points };
    }
    let before = traces::call(random, old.program.as_ref());
    let after = traces::call(random, new.program.as_ref());
    let update = Update {
        old: old.image.clone(),
        new: new.image.clone(),
        points,
        first: before.trace,
        second: after.trace,
        given: before.given,
    };
    let rooms = Rooms { table: before.table, answer: before.numbers };
    Request::ReplayHandover { across: Box::new(update), rooms }
}

/// Room for so much, which is something, mostly just enough or somewhat more.
fn room(random: &mut Random, wanted: usize) -> usize {
    let (more, fewer) = (random.below(SPARE), random.below(wanted));
    match random.chance(WITH_ROOM) {
        true => wanted + more,
        false => *random.pick(&[0, wanted - 1, fewer]),
    }
}

impl Session {
    /// The numbers once the service is opened and some are set by the host.
    pub fn opened(&self, open: impl Fn(&[u8], &mut [u32]) -> u16) -> Opened {
        let mut numbers = self.before;
        let code = open(&self.rights, &mut numbers[..self.lent]);
        for &(caller, number) in &self.set {
            numbers[CALLERS + caller - 1] = number;
        }
        Opened { code, numbers }
    }
}

/// A service after its opening, and the code of that.
#[derive(Clone, Debug, PartialEq, Eq)]
pub struct Opened {
    pub code: u16,
    pub numbers: [u32; AROUND],
}
