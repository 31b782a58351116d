//! Tariffs for the program of an accepted image, or for none.

use super::random::Random;
use reference::bill::{charge, Tariff};
use reference::image::Thread;

/// One class priced, or all, or none, with a least charge about the sum.
pub fn tariff(random: &mut Random, program: Option<&[Thread]>) -> Tariff {
    let prices = prices(random);
    let sum = charge(program, &prices, 0).cents;
    Tariff { least: least(random, sum), ..prices }
}

/// One class priced, or all, without a least charge.
fn prices(random: &mut Random) -> Tariff {
    let [start, step, taken, interference] = std::array::from_fn(|_| price(random));
    let none = Tariff::default();
    match random.below(8) {
        0 => Tariff { start, ..none },
        1 => Tariff { step, ..none },
        2 => Tariff { taken, ..none },
        3 => Tariff { interference, ..none },
        4 => none,
        _ => Tariff { start, step, taken, interference, ..none },
    }
}

/// Small prices, so that a least charge can be above the sum, the ends of the range, and any.
fn price(random: &mut Random) -> u16 {
    let (small, any) = (u16::from(random.between(0, 99)), random.draw() as u16);
    *random.pick(&[0, 1, small, small, any, u16::MAX])
}

/// Just below, at or just above the sum if that is in range, the ends of the range, or any.
fn least(random: &mut Random, sum: u32) -> u16 {
    let near = [sum.saturating_sub(1), sum, sum.saturating_add(1)];
    let near = u16::try_from(*random.pick(&near)).unwrap_or(u16::MAX);
    let any = random.draw() as u16;
    *random.pick(&[0, near, near, any, u16::MAX])
}

/// How many images are billed already: the ends of the range, beside them, and any.
pub fn billed(random: &mut Random) -> u32 {
    let any = random.draw() as u32;
    *random.pick(&[0, 1, any, u32::MAX - 1, u32::MAX])
}
