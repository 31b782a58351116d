//! Steps a second of both sides: a trace that polls, and traces that fill the table.

use super::medians;
use crate::proved::Replay;
use reference::formula::parse::Counts;
use reference::image::Header;
use reference::replay::{replay, ANSWER, MOST_WRITES, NO_ENTRY, WRITE_BYTES};
use sets::examples::message_passing;
use sets::generate::harness;
use sets::generate::traces::repeating;
use std::hint::black_box;

/// So many steps of a reader that polls.
const POLLS: usize = 100_000;

/// An image and a trace, with the code and the steps taken that both sides have to answer.
struct Timed {
    name: &'static str,
    image: Vec<u8>,
    trace: Vec<u8>,
    code: u16,
    steps: usize,
}

/// Times both sides by turns and prints the time of a call, that of a call with an empty trace, which accepts the image
/// and no more, and the steps a second of the difference.
pub fn run(proved: Replay) -> bool {
    println!("trace       steps  side            call µs  accepting µs  million steps/s");
    for timed in all() {
        let whole = medians(|| timed.call(proved), || timed.call(replay));
        let none = Timed { trace: Vec::new(), code: 0, steps: 0, ..timed };
        let accepting = medians(|| none.call(proved), || none.call(replay));
        for (side, name) in ["proved", "independent"].iter().enumerate() {
            let rate = timed.steps as f64 / (whole[side] - accepting[side]) / 1e6;
            let [call, accepting] = [whole[side] * 1e6, accepting[side] * 1e6];
            println!(
                "{:<10} {:>6}  {name:<11} {call:>11.2} {accepting:>13.2} {rate:>16.2}",
                timed.name, timed.steps
            );
        }
    }
    true
}

fn all() -> [Timed; 3] {
    let polling = Timed {
        name: "polling",
        image: message_passing().bytes(),
        trace: [2, 0].repeat(POLLS),
        code: 0,
        steps: POLLS,
    };
    [polling, filling("stores", None), filling("fetch-adds", Some(1))]
}

/// One thread that writes until no entry is left: two words have their start writes.
fn filling(name: &'static str, register: Option<u8>) -> Timed {
    let counts = Counts { threads: 1, words: 2, registers: 1, range: 8 };
    let header = Header::cleared(counts, vec![0, 0], vec![1]);
    let program = harness::program(header, vec![repeating(1, register)]);
    let image = harness::plan(program).bytes();
    let trace = (0..MOST_WRITES as u8).flat_map(|at| [1, at, 1, 0]).collect();
    Timed { name, image, trace, code: NO_ENTRY, steps: 2 * (MOST_WRITES - 2) }
}

impl Timed {
    fn call(&self, replay: Replay) {
        let (mut table, mut answer) = ([0; MOST_WRITES * WRITE_BYTES], [0; ANSWER]);
        let (image, trace) = (black_box(&self.image), black_box(&self.trace));
        let code = replay(image, trace, &[], &mut table, &mut answer);
        assert_eq!((code, answer[0]), (self.code, self.steps));
        black_box((table, answer));
    }
}
