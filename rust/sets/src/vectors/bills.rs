//! Images to be billed: each class priced, least charges, numbers at both ends, answers of several lengths.

use super::images::SMALL;
use super::refused::by_code;
use super::tour;
use crate::examples::{largest, message_passing, two_writes};
use crate::generate::clutter;
use reference::bill::{bill, Tariff};
use reference::checker::accepted;
use reference::image::written::image_bytes;

/// A call.
#[derive(Clone, Debug, PartialEq, Eq)]
pub struct BillCase {
    pub label: String,
    pub image: Vec<u8>,
    pub tariff: Tariff,
    pub billed: u32,
    pub room: usize,
}

const ROOM: usize = 6;
const NONE: Tariff = Tariff { start: 0, step: 0, taken: 0, interference: 0, least: 0 };
const MIXED: Tariff = Tariff { start: 3, step: 70, taken: 1_100, interference: 23_000, least: 0 };
const DEAREST: Tariff =
    Tariff { start: 65_535, step: 65_535, taken: 65_535, interference: 65_535, least: 65_535 };

/// All cases of the set.
pub fn cases() -> Vec<BillCase> {
    [classes(), least(), numbers(), rooms(), refused(), generated()].concat()
}

fn case(label: impl Into<String>, image: &[u8], tariff: Tariff) -> BillCase {
    BillCase { label: label.into(), image: image.to_vec(), tariff, billed: 0, room: ROOM }
}

/// Images with their names; the tour has every operation and branches in both threads.
fn named() -> [(&'static str, Vec<u8>); 4] {
    [
        ("small", SMALL.to_vec()),
        ("message passing", message_passing().bytes()),
        ("two writes", two_writes().bytes()),
        ("tour", image_bytes(&tour::records())),
    ]
}

fn classes() -> Vec<BillCase> {
    let alone = [
        ("start", Tariff { start: 1, ..NONE }),
        ("step", Tariff { step: 1, ..NONE }),
        ("taken", Tariff { taken: 1, ..NONE }),
        ("interference", Tariff { interference: 1, ..NONE }),
        ("start, 65,535", Tariff { start: 65_535, ..NONE }),
        ("step, 65,535", Tariff { step: 65_535, ..NONE }),
        ("taken, 65,535", Tariff { taken: 65_535, ..NONE }),
        ("interference, 65,535", Tariff { interference: 65_535, ..NONE }),
        ("nothing", NONE),
        ("each another price", MIXED),
        ("all 65,535", DEAREST),
    ];
    let mut cases = Vec::new();
    for (name, image) in named() {
        cases.extend(alone.map(|(label, tariff)| case(format!("{name}: {label}"), &image, tariff)));
    }
    cases.push(case("largest: all 65,535", &largest(), DEAREST));
    cases
}

/// Least charges about the sum, and at the ends of their range.
fn least() -> Vec<BillCase> {
    let prices = Tariff { start: 40, step: 30, taken: 20, interference: 10, least: 0 };
    let mut cases = Vec::new();
    for (name, image) in named() {
        let sum = bill(&image, &prices, 0).cents as u16;
        for least in [0, 1, sum - 1, sum, sum + 1, 65_535] {
            let label = format!("{name}: {sum} cents, at least {least}");
            cases.push(case(label, &image, Tariff { least, ..prices }));
        }
        let label = format!("{name}: nothing, at least 500");
        cases.push(case(label, &image, Tariff { least: 500, ..NONE }));
    }
    cases
}

/// How many are billed already.
fn numbers() -> Vec<BillCase> {
    let with = |billed| {
        let small = case(format!("{billed} billed"), &SMALL, MIXED);
        let free = case(format!("{billed} billed, for nothing"), &SMALL, NONE);
        [small, free].map(|case| BillCase { billed, ..case })
    };
    let numbers = [1, 2, 255, 65_535, 65_536, 1 << 31, u32::MAX - 2, u32::MAX - 1, u32::MAX];
    numbers.into_iter().flat_map(with).collect()
}

/// Answers that are too short, just long enough, and longer; too short comes before all else.
fn rooms() -> Vec<BillCase> {
    let mut cases = Vec::new();
    for room in [0, 1, 5, 6, 7, 20] {
        for (name, image, billed) in [
            ("accepted", &SMALL[..], 7),
            ("at the end", &SMALL[..], u32::MAX),
            ("refused", &SMALL[..49], 7),
            ("refused, at the end", &SMALL[..49], u32::MAX),
        ] {
            let label = format!("{name}: {room} numbers");
            cases.push(BillCase { room, billed, ..case(label, image, MIXED) });
        }
    }
    cases
}

/// An image of each code, and the small one with one byte changed, of which most have a fault then.
fn refused() -> Vec<BillCase> {
    let of_code = |(code, image): (u16, Vec<u8>)| {
        let label = format!("verdict {code}");
        BillCase { billed: code.into(), ..case(label, &image, DEAREST) }
    };
    let changed = |place: usize| {
        let mut image = SMALL;
        image[place] ^= 5;
        case(format!("small, byte {place} changed"), &image, DEAREST)
    };
    by_code().into_iter().map(of_code).chain((0..SMALL.len()).map(changed)).collect()
}

/// Programs of every number of threads.
fn generated() -> Vec<BillCase> {
    let mut cases = Vec::new();
    for threads in 1..=4 {
        let images = (0..).map(|seed| (seed, clutter::image(seed)));
        let of_size = images.filter(|(_, image)| {
            image.len() < 4000
                && accepted(image).is_some_and(|i| i.program.threads.len() == threads)
        });
        for (seed, image) in of_size.take(12) {
            let label = format!("{threads} threads, seed {seed}");
            let billed = seed as u32;
            cases.push(BillCase { billed, ..case(label, &image, MIXED) });
        }
    }
    cases
}
