//! Runs every order of steps of an image's program up to a bound and evaluates
//! each assertion and claim exactly.
//!
//! Usage: explore FILE [--steps N] [--writes N] [--starts N] [--states N]

use reference::checker::{check, decode};
use reference::explore::{describe, explore, Bounds, Outcome};
use reference::image::Meeting;
use std::process::ExitCode;

const USAGE: &str = "usage: explore FILE [--steps N] [--writes N] [--starts N] [--states N]";

/// The status where a bound kept some state from being looked at.
const CUT: u8 = 3;

struct Options {
    path: String,
    bounds: Bounds,
}

fn options() -> Option<Options> {
    let mut path = None;
    let mut bounds = Bounds::DEFAULT;
    let mut arguments = std::env::args().skip(1);
    while let Some(argument) = arguments.next() {
        match argument.as_str() {
            "--steps" => bounds.steps = arguments.next()?.parse().ok()?,
            "--writes" => bounds.writes = arguments.next()?.parse().ok().filter(|&n| n <= 200)?,
            "--starts" => bounds.starts = arguments.next()?.parse().ok()?,
            "--states" => bounds.states = arguments.next()?.parse().ok()?,
            _ => path = Some(argument),
        }
    }
    Some(Options { path: path?, bounds })
}

fn main() -> ExitCode {
    let Some(Options { path, bounds }) = options() else {
        eprintln!("{USAGE}");
        return ExitCode::from(2);
    };
    let bytes = match std::fs::read(&path) {
        Ok(bytes) => bytes,
        Err(error) => {
            eprintln!("{path}: {error}");
            return ExitCode::from(2);
        }
    };
    println!("verdict {}", check(&bytes));
    let Ok(image) = decode(&bytes) else {
        eprintln!("the image has no program to run");
        return ExitCode::from(2);
    };
    let claims: Vec<Meeting> = image.claims.iter().map(|claim| claim.meeting).collect();
    let found = explore(&image.program, &claims, bounds);
    match found.outcome {
        Outcome::Holds { all: true } => {
            println!("holds in all {} states", found.states);
            ExitCode::SUCCESS
        }
        Outcome::Holds { all: false } => {
            println!(
                "nothing is false in {} states, not all there are: {}",
                found.states, found.cut
            );
            ExitCode::from(CUT)
        }
        Outcome::Breaks(broken) => {
            print!("{}", describe(&image.program, &broken));
            ExitCode::FAILURE
        }
    }
}
