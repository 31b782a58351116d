//! How long both sides take, on images that ask much of one part each and on images that grow.

pub mod images;
mod measure;
pub mod replay;

use crate::proved::{check_image, trim_image};
pub use measure::median;
use measure::medians;
use reference::checker::{self, decode, frames, rules};
use reference::trim;
use std::cell::RefCell;
use std::hint::black_box;
use std::path::Path;

/// The target: the proved side takes no longer than the independent one.
const TARGET: f64 = 1.0;

/// What is timed: each side is given an image and a buffer as long as it, and answers with a code.
pub struct Timed {
    proved: Task,
    independent: Task,
}

type Task = fn(&[u8], &mut [u8]) -> u16;

/// The verdict on an image.
pub const CHECK: Timed = Timed { proved: check_image, independent: checker::check_into };

/// The image trimmed, its verdict included.
pub const TRIM: Timed = Timed {
    proved: |image, out| trim_image(image, out).code,
    independent: |image, out| trim::trim_into(image, out).code,
};

/// Times both sides on the images with these names, or on all; false if an image is not accepted.
pub fn run(timed: &Timed, names: &[&str]) -> bool {
    println!("image                  bytes  formulas  lines   proved µs  independent µs  ratio");
    let mut above = Vec::new();
    for (name, make) in images::all() {
        if !names.is_empty() && !names.contains(&name) {
            continue;
        }
        let image = &make();
        if let Err(fault) = accepted(image) {
            println!("{name}: {fault}");
            return false;
        }
        let ratio = time(timed, name, image);
        if ratio > TARGET {
            above.push(name);
        }
    }
    match above.is_empty() {
        true => println!("no ratio is above {TARGET}"),
        false => println!("above {TARGET}: {}", above.join(", ")),
    }
    true
}

/// Writes the images that are timed into a folder, each by its name.
pub fn write(folder: &str) -> bool {
    let file = |name: &str| Path::new(folder).join(format!("{}.image", name.replace(' ', "-")));
    let written = std::fs::create_dir_all(folder).and_then(|()| {
        images::all().iter().try_for_each(|(name, make)| std::fs::write(file(name), make()))
    });
    if let Err(error) = &written {
        eprintln!("{folder}: {error}");
    }
    written.is_ok()
}

/// Whether both checkers accept the image, and all its lines are justified.
fn accepted(image: &[u8]) -> Result<(), String> {
    let codes = [check_image, checker::check_into].map(|check| check(image, &mut [0; 22]));
    if codes != [0, 0] {
        return Err(format!("not accepted: proved {}, independent {}", codes[0], codes[1]));
    }
    let image = decode(image).map_err(|refusal| format!("{refusal:?}"))?;
    match rules::justified_lines(&image).iter().position(|&justified| !justified) {
        Some(index) => Err(format!("line {} is not justified", index + 1)),
        None => Ok(()),
    }
}

/// Prints how long both take, and answers with the ratio.
fn time(timed: &Timed, name: &str, image: &[u8]) -> f64 {
    let task = |side: Task| {
        let out = RefCell::new(vec![0; image.len()]);
        move || {
            assert_eq!(black_box(side)(black_box(image), &mut out.borrow_mut()), 0);
            black_box(&out);
        }
    };
    let [proved, independent] = medians(task(timed.proved), task(timed.independent));
    let ratio = proved / independent;
    let (formulas, lines) = (records(image, frames::FORMULA), records(image, frames::LINE));
    println!(
        "{name:<20} {:>7} {formulas:>9} {lines:>6} {:>11.2} {:>15.2} {ratio:>6.2}",
        image.len(),
        proved * 1e6,
        independent * 1e6,
    );
    ratio
}

fn records(image: &[u8], kind: u16) -> usize {
    let records = frames::split(image).expect("the image is accepted");
    records.iter().filter(|record| record.kind == kind).count()
}
