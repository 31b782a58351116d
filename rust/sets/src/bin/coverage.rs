//! Prints how often each code, rule and operation and each number of claims occurs in generated images.
//!
//! Usage: coverage [N] [SEED]

use sets::generate::{coverage::Coverage, image};

fn number(place: usize, default: u64) -> u64 {
    std::env::args().nth(place).and_then(|text| text.parse().ok()).unwrap_or(default)
}

fn main() {
    let (images, seed) = (number(1, 20_000), number(2, 1));
    let mut coverage = Coverage::default();
    for offset in 0..images {
        coverage.add(&image(seed.wrapping_add(offset)));
    }
    println!("{images} images from seed {seed}");
    println!("code   images");
    for (code, count) in &coverage.codes {
        println!("{code:>4} {count:>8}");
    }
    println!("code class   images");
    for ((code, class), count) in &coverage.classes {
        println!("{code:>4} {class:>5} {count:>8}");
    }
    println!("operation   images");
    for (operation, count) in &coverage.operations {
        println!("{operation:>9} {count:>8}");
    }
    println!("claims   images");
    for (claims, count) in &coverage.claims {
        println!("{claims:>6} {count:>8}");
    }
    println!("rule justified    unfit  decided");
    for (rule, counts) in &coverage.rules {
        println!("{rule:>4} {:>9} {:>8} {:>8}", counts.justified, counts.unfit, counts.decided);
    }
}
