//! How long a whole run of a program takes, beside one that does nothing.

use crate::timing::median;
use std::fs::File;
use std::io::Result;
use std::path::Path;
use std::process::{Command, Stdio};
use std::time::Instant;

const RUNS: usize = 3000;
const NOTHING: &str = "/bin/true";

/// Runs the program on the image and `/bin/true` by turns, and prints both medians and their ratio; false if a run
/// fails.
pub fn run(program: &str, image: &str) -> bool {
    match measured(program, image) {
        Ok([own, nothing]) => {
            println!(
                "{RUNS} runs each: {program} {:.3} ms, {NOTHING} {:.3} ms",
                own * 1e3,
                nothing * 1e3
            );
            println!("ratio {:.2}", own / nothing);
            true
        }
        Err(error) => {
            eprintln!("{program} on {image}: {error}");
            false
        }
    }
}

fn measured(program: &str, image: &str) -> Result<[f64; 2]> {
    let image = Path::new(image);
    let answer = Command::new(program).stdin(File::open(image)?).output()?;
    println!("it prints: {}", String::from_utf8_lossy(&answer.stdout).trim_end());
    let (mut own, mut nothing) = (Vec::new(), Vec::new());
    for _ in 0..RUNS {
        own.push(seconds(program, image)?);
        nothing.push(seconds(NOTHING, image)?);
    }
    Ok([median(own), median(nothing)])
}

/// The time of one run with the image as standard input.
fn seconds(program: &str, image: &Path) -> Result<f64> {
    let mut command = Command::new(program);
    command.stdin(File::open(image)?).stdout(Stdio::null());
    let start = Instant::now();
    command.status()?;
    Ok(start.elapsed().as_secs_f64())
}
