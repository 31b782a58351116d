//! Both sides on the same images and buffers: every answer and every byte has to be the same.

mod bill;
mod check;
pub mod handover;
mod replay;
pub mod service;
pub mod sources;
mod tally;
mod trim;

pub use bill::BILL;
pub use check::CHECK;
pub use replay::REPLAY;
pub use trim::TRIM;

use sets::vectors::Case;
use std::path::Path;
use tally::Tally;

/// From so many generated images on, each code has to occur.
const MANY: u64 = 100_000;

/// Something that both sides do with an image.
pub struct Task {
    /// Gives an image to both sides, with buffers that the seed fills, and counts their answers; an error says where
    /// they differ.
    compare: fn(&[u8], u64, &mut Tally) -> Result<(), String>,
    /// Every code that an answer can have.
    codes: &'static [u16],
    /// What answers are counted by.
    counted: &'static str,
    /// The image of a seed.
    image: fn(u64) -> Vec<u8>,
}

/// Compares on the stored sets, on long inputs and on so many generated images; false if an answer differs
/// or some code never comes.
pub fn run(task: &Task, images: u64, seed: u64) -> bool {
    let fixed = sources::sets().into_iter().chain([sources::stored(), sources::long()]);
    for source in fixed {
        let (name, cases) = match source {
            Ok(named) => named,
            Err(fault) => {
                eprintln!("{fault}");
                return false;
            }
        };
        if !on_cases(task, name, &cases) {
            return false;
        }
    }
    generated(task, images, seed)
}

/// Compares on the files, and on all files of folders.
pub fn files(task: &Task, paths: &[&str]) -> bool {
    match sources::files(paths) {
        Ok(cases) => on_cases(task, "files", &cases),
        Err(fault) => {
            eprintln!("{fault}");
            false
        }
    }
}

/// Compares on labelled images up to the first that differs, which is reported.
fn on_cases(task: &Task, name: &str, cases: &[Case]) -> bool {
    let mut tally = Tally::of(task.counted);
    for (pattern, case) in (0..).zip(cases) {
        if let Err(found) = (task.compare)(&case.image, pattern, &mut tally) {
            report(&case.label, &case.image, &found);
            return false;
        }
    }
    println!("{name}: {tally}");
    true
}

fn generated(task: &Task, images: u64, first: u64) -> bool {
    let mut tally = Tally::of(task.counted);
    for offset in 0..images {
        let seed = first.wrapping_add(offset);
        let image = (task.image)(seed);
        if let Err(found) = (task.compare)(&image, seed, &mut tally) {
            report(&format!("seed {seed}"), &image, &found);
            return false;
        }
    }
    println!("generated from seed {first}: {tally}");
    let missing = tally.missing(task.codes);
    if images >= MANY && !missing.is_empty() {
        println!("codes that never came: {missing:?}");
        return false;
    }
    true
}

/// Prints both answers and writes the image to a file.
fn report(label: &str, image: &[u8], found: &str) {
    println!("DIFFERENCE: {label}, {} bytes\n{found}", image.len());
    let path = Path::new("difference.image");
    match std::fs::write(path, image) {
        Ok(()) => println!("the image is in {}", path.display()),
        Err(error) => println!("{}: {error}", path.display()),
    }
}
