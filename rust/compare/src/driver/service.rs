//! Sessions of several callers on both sides: every reply and every number of the service has to be the same; and what a
//! caller is told does not go by the others.

use super::tally::Tally;
use super::MANY;
use crate::proved::{Service, KINDS};
use reference::service::{open_service, serve, Call, Kind, Lent, Request, CALLERS};
use sets::generate::calls::{session, Session, AROUND, CALLS, SPARE};
use sets::generate::random::Random;
use std::collections::{BTreeMap, BTreeSet};

/// What a call left: its code, all that was lent, and its caller's number, if it has one.
#[derive(Clone, Debug, PartialEq, Eq)]
struct Reply {
    code: u16,
    lent: Lent,
    number: Option<u32>,
}

type Numbers = [u32; AROUND];
type Serve = fn(&mut [u32], &Call, &mut Lent) -> u16;

/// Replies by what was asked.
#[derive(Default)]
struct Tallies(BTreeMap<Kind, Tally>);

/// The codes that a call of a kind can answer.
fn codes(kind: Kind) -> &'static [u16] {
    match kind {
        Kind::Check => &[0, 1, 2, 3, 4, 5, 6, 7, 8, 9, 20, 21, 22, 23, 26, 35, 36],
        Kind::Trim => &[0, 24, 25, 35, 36],
        Kind::Bill => &[0, 1, 30, 31, 35, 36],
        Kind::Handover => &[0, 32, 33, 34, 35, 36],
        Kind::Replay => &[0, 1, 24, 27, 28, 29, 35, 36],
        Kind::ReplayHandover => &[0, 1, 27, 28, 29, 32, 33, 34, 35, 36],
    }
}

impl Tallies {
    fn count(&mut self, kind: Kind, code: u16) {
        self.0.entry(kind).or_insert_with(|| Tally::of("calls")).count(code);
    }

    /// Prints them; false if a code never came though there were many calls.
    fn told(&self, calls: u64) -> bool {
        let mut complete = true;
        for (kind, tally) in &self.0 {
            println!("{kind:?}: {tally}");
            let missing = tally.missing(codes(*kind));
            if calls >= MANY && !missing.is_empty() {
                println!("codes that never came: {missing:?}");
                complete = false;
            }
        }
        complete
    }
}

/// Compares on sessions with at least so many calls together; false if a reply or a service differs.
pub fn run(proved: &Service, calls: u64, first: u64) -> bool {
    let sessions = calls.div_ceil(CALLS as u64);
    let mut tallies = Tallies::default();
    for offset in 0..sessions {
        let seed = first.wrapping_add(offset);
        let compared = compare(proved, &session(seed, &KINDS), seed, &mut tallies);
        if let Err(found) = compared {
            println!("DIFFERENCE: session of seed {seed}\n{found}");
            return false;
        }
    }
    println!("{sessions} sessions of {CALLS} calls from seed {first}, each caller alone as among the others");
    tallies.told(calls)
}

/// All calls of a session on both sides, and then those of each caller alone on the proved side.
fn compare(
    proved: &Service,
    session: &Session,
    seed: u64,
    tallies: &mut Tallies,
) -> Result<(), String> {
    let (opened, apart) = (session.opened(proved.open), session.opened(open_service));
    if opened != apart {
        return Err(format!("opened: proved {opened:?}\nindependent {apart:?}"));
    }
    let (mut ours, mut theirs) = (opened.numbers, apart.numbers);
    let mut replies = Vec::new();
    for (index, call) in session.calls.iter().enumerate() {
        let before = blank(call, seed ^ index as u64);
        let by_proof = reply(proved.serve, &mut ours, session.lent, call, before.clone());
        let by_other = reply(serve, &mut theirs, session.lent, call, before);
        if (&by_proof, ours) != (&by_other, theirs) {
            return Err(difference(index, call, (&by_proof, &ours), (&by_other, &theirs)));
        }
        tallies.count(call.request.kind(), by_proof.code);
        replies.push(by_proof);
    }
    let callers: BTreeSet<usize> = session.calls.iter().map(|call| call.caller).collect();
    callers
        .into_iter()
        .try_for_each(|caller| alone(proved, session, opened.numbers, seed, (caller, &replies)))
}

/// The calls of one caller, without the others and with other rights and numbers for them: the replies are the same.
fn alone(
    proved: &Service,
    session: &Session,
    mut service: Numbers,
    seed: u64,
    (caller, replies): (usize, &[Reply]),
) -> Result<(), String> {
    let random = &mut Random::new(!seed);
    for other in (1..=CALLERS).filter(|&other| other != caller) {
        service[other - 1] = random.draw() as u32;
        service[CALLERS + other - 1] = random.draw() as u32;
    }
    for (index, call) in session.calls.iter().enumerate().filter(|(_, c)| c.caller == caller) {
        let before = blank(call, seed ^ index as u64);
        let reply = reply(proved.serve, &mut service, session.lent, call, before);
        if reply != replies[index] {
            let among = &replies[index];
            return Err(format!(
                "call {index}, {call:?}\nalone: {reply:?}\namong others: {among:?}"
            ));
        }
    }
    Ok(())
}

/// What a call is lent, filled by a seed, with something behind that may not change.
fn blank(call: &Call, seed: u64) -> Lent {
    let random = &mut Random::new(seed);
    let (bytes, bill, replay) = match call.request {
        Request::Check { room, .. } | Request::Trim { room, .. } => (room, 0, 0),
        Request::Bill { room, .. } => (0, room, 0),
        Request::Handover { .. } => (0, 0, 0),
        Request::Replay { rooms, .. } | Request::ReplayHandover { rooms, .. } => {
            (rooms.table, 0, rooms.answer)
        }
    };
    Lent {
        bytes: (0..bytes + SPARE).map(|_| random.draw() as u8).collect(),
        written: random.draw() as usize,
        bill: (0..bill + SPARE).map(|_| random.draw() as u32).collect(),
        replay: (0..replay + SPARE).map(|_| random.draw() as usize).collect(),
    }
}

fn reply(serve: Serve, service: &mut Numbers, lent: usize, call: &Call, before: Lent) -> Reply {
    let mut after = before;
    let code = serve(&mut service[..lent], call, &mut after);
    let place = call.caller.checked_sub(1).filter(|&place| place < CALLERS);
    Reply { code, lent: after, number: place.map(|place| service[CALLERS + place]) }
}

fn difference(
    index: usize,
    call: &Call,
    proved: (&Reply, &Numbers),
    independent: (&Reply, &Numbers),
) -> String {
    format!("call {index}, {call:?}\nproved: {proved:?}\nindependent: {independent:?}")
}

#[cfg(test)]
mod tests {
    use super::*;
    use reference::service::{admitted, Right};

    fn with(serve: Serve) -> bool {
        run(&Service { open: open_service, serve }, 4000, 1)
    }

    #[test]
    fn the_independent_side_agrees_with_itself() {
        assert!(with(serve));
    }

    /// Each is a slip that some session shows.
    #[test]
    fn slips_are_found() {
        // The neighbour's number goes up too.
        assert!(!with(|service, call, lent| {
            let code = serve(service, call, lent);
            if code == 0
                && service.len() > CALLERS + 1
                && matches!(call.request, Request::Bill { .. })
            {
                service[CALLERS + 1] = service[CALLERS + 1].wrapping_add(1);
            }
            code
        }));
        // A right that somebody has will do.
        assert!(!with(|service, call, lent| {
            let code = serve(service, call, lent);
            let others = 1..=CALLERS;
            if code == 36 && others.into_iter().any(|c| admitted(service, c, Right::Check) == 0) {
                return 0;
            }
            code
        }));
        // A verdict is written though the call is refused.
        assert!(!with(|service, call, lent| {
            let code = serve(service, call, lent);
            if let (35 | 36, Request::Check { room: 1.., .. }) = (code, &call.request) {
                lent.bytes[0] ^= 1;
            }
            code
        }));
    }
}
