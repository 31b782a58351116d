//! Random small programs with random wishes: what is false is never accepted, and most of what is true is found.

use outline::infer::{infer, Answer, Wish};
use outline::text::parse_source::parse;
use reference::checker::check;
use reference::explore::{explore, Bounds, Outcome};

const PROGRAMS: usize = 2_000;
/// The tries for each of them.
const TRIES: u64 = 20_000;
const BOUNDS: Bounds = Bounds { steps: 40, writes: 12, starts: 64, states: 100_000 };

/// Numbers without a pattern, the same on every machine.
struct Random(u64);

impl Random {
    fn below(&mut self, most: usize) -> usize {
        self.0 =
            self.0.wrapping_mul(6_364_136_223_846_793_005).wrapping_add(1_442_695_040_888_963_407);
        (self.0 >> 33) as usize % most
    }

    fn of<'a>(&mut self, list: &[&'a str]) -> &'a str {
        list[self.below(list.len())]
    }
}

/// An instruction of a thread with these two registers.
fn instruction(random: &mut Random, registers: [&str; 2]) -> String {
    let (x, v) = (random.of(&["x", "y"]), 1 + random.below(2));
    let r = registers[random.below(2)];
    match random.below(10) {
        0..=1 => format!("{x} := {v}"),
        2..=3 => format!("{x} :=rel {v}"),
        4..=5 => format!("{r} <- {x}"),
        6..=7 => format!("{r} <-acq {x}"),
        8 => format!("swap {x} := {v}"),
        _ => format!("{r} <- fetch-add {x} + 1"),
    }
}

/// A program of two threads; the first ends with the wish.
fn program(random: &mut Random) -> String {
    let mut text = String::from("range 5\nword x = 0\nword y = 0\n");
    let names = ["a", "b", "c", "d"];
    let tests: Vec<String> = (0..1 + random.below(3))
        .map(|_| format!("{} {} {}", random.of(&names), random.of(&["=", "!="]), random.below(3)))
        .collect();
    for (thread, registers) in [("left", ["a", "b"]), ("right", ["c", "d"])] {
        text += &format!("thread {thread}\n  registers {}, {}\n", registers[0], registers[1]);
        for _ in 0..1 + random.below(3) {
            text += &format!("  {{ ? }}\n    {}\n", instruction(random, registers));
        }
        let last = if thread == "left" { tests.join(" or ") } else { "?".into() };
        text += &format!("  {{ {last} }}\n");
    }
    text
}

#[test]
fn no_false_wish_is_accepted_and_most_true_ones_are_found() {
    let mut random = Random(2026);
    let (mut wished, mut found, mut wrong) = (0, 0, 0);
    for _ in 0..PROGRAMS {
        let text = program(&mut random);
        let source = parse(&text).unwrap_or_else(|e| panic!("{e}\n{text}"));
        let seen = explore(&source.program(), &[], BOUNDS).outcome;
        let answer = infer(&source, &Wish::of(&source, false), TRIES, &|_, _| true);
        match (seen, answer) {
            (Outcome::Breaks(_), Answer::False(..)) => wrong += 1,
            (Outcome::Breaks(_), Answer::Found(_)) => panic!("a false wish is accepted:\n{text}"),
            (Outcome::Breaks(_), Answer::NotFound(_)) => {
                panic!("a false wish is not told:\n{text}")
            }
            (Outcome::Holds { all }, answer) => {
                assert!(all, "not all states were looked at:\n{text}");
                wished += 1;
                match answer {
                    Answer::Found(outline) => {
                        assert_eq!(check(&outline.bytes).code, 0, "{text}");
                        found += 1;
                    }
                    Answer::False(..) => panic!("a true wish is told false:\n{text}"),
                    Answer::NotFound(_) => {}
                }
            }
        }
    }
    println!("{wrong} false wishes, all told false; {wished} true ones, {found} found");
    assert_eq!(wished + wrong, PROGRAMS);
    assert!(found * 100 >= wished * 90, "{found} of {wished} true wishes are found");
}
