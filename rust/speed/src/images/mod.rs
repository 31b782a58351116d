//! Whole images: `decode_image` beside two Rust readers.

pub mod answer;
mod build;
mod compare;
mod damage;
mod reader;

use crate::measure;
use crate::random::Random;
use crate::rattle;
use answer::Reader;
use reader::{ByScan, ByTree};
use std::hint::black_box;

const DAMAGED: usize = 300_000;

/// Compares and times the readers; false if an answer differs or the comparison says little.
pub fn run(random: &mut Random) -> bool {
    let readers: [(&str, Reader); 3] = [
        ("Rattle", rattle::image),
        ("Rust, searching by tree", reader::read::<ByTree>),
        ("Rust, searching by scan", reader::read::<ByScan>),
    ];
    let compared = compare::on_damaged(random, &readers, DAMAGED);
    println!("{compared}");
    if !compared.is_useful() || compared.differ > 0 {
        return false;
    }

    let image = build::largest(random);
    let image = &image;
    println!("an image of {} bytes", image.len());
    let tasks = readers.map(|(_, read)| -> Box<dyn Fn()> {
        Box::new(move || assert_eq!(black_box(read)(black_box(image)), Ok(())))
    });
    measure::print(&readers.map(|(name, _)| name), image.len(), "MB/s", &measure::best(&tasks));
    true
}

#[cfg(test)]
mod tests;
