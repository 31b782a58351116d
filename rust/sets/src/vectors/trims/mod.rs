//! Images to be trimmed: each clause of what is kept, and buffers of several lengths.

mod formulas;
mod lines;

use super::images::SMALL;
use super::refused::by_code;
use super::tour;
use crate::examples::{largest, message_passing, two_writes};
use crate::generate::clutter;
use crate::generate::clutter::insert::{insert_formula, insert_line};
use lines::chain;
use reference::checker::check;
use reference::image::written::{image_bytes, Line, Written};
use reference::trim::trimmed;
use std::collections::BTreeSet;

/// An image with a buffer of so many bytes.
#[derive(Clone, Debug, PartialEq, Eq)]
pub struct TrimCase {
    pub label: String,
    pub image: Vec<u8>,
    pub room: usize,
}

/// Generated images that are longer are left out.
const LONGEST: usize = 8000;
/// So many seeds are looked at.
const SEEDS: u64 = 200;

/// All cases of the set.
pub fn cases() -> Vec<TrimCase> {
    [rooms(), lines::cases(), formulas::cases(), numbers(), refused(), whole(), generated()]
        .concat()
}

/// A buffer that is just long enough, or as long as an image that is not accepted.
pub fn exact(label: impl Into<String>, image: Vec<u8>) -> TrimCase {
    let room = trimmed(&image).map_or(image.len(), |bytes| bytes.len());
    TrimCase { label: label.into(), image, room }
}

fn tour() -> Written {
    Written::read(&image_bytes(&tour::records())).expect("an image in order")
}

/// The tour changed.
fn changed(label: impl Into<String>, change: impl FnOnce(&mut Written)) -> TrimCase {
    let mut image = tour();
    change(&mut image);
    exact(label, image.bytes())
}

/// Buffers from none to longer than the image, of an image with nothing to trim and of one with dead lines.
fn rooms() -> Vec<TrimCase> {
    let mut cases = Vec::new();
    for (name, image) in [("small", SMALL.to_vec()), ("tour", tour().bytes())] {
        let length = exact("", image.clone()).room;
        let all = [0, 1, length - 1, length, length + 1, image.len(), image.len() + 100];
        for room in BTreeSet::from(all) {
            let label = format!("{name}: {room} bytes for {length}");
            cases.push(TrimCase { label, image: image.clone(), room });
        }
    }
    cases
}

/// The line from "true" to "true", which needs no premise.
fn truth(image: &Written) -> Line {
    let truth = image.formulas.iter().position(|bytes| bytes == &[28, 11, 8]);
    let number = truth.expect("the tour says it") as u16 + 1;
    Line { rule: 20, thread: 0, point: 0, left: number, right: number, premises: Vec::new() }
}

/// Numbers above 255, before and behind.
fn numbers() -> Vec<TrimCase> {
    vec![
        changed("300 dead lines in front", |image| {
            (0..300).for_each(|_| {
                insert_line(image, 1, truth(image));
            })
        }),
        changed("300 unused formulas in front", |image| {
            (0..300).for_each(|_| {
                insert_formula(image, 1, vec![17, 1]);
            })
        }),
        changed("300 lines in front that are kept", kept_chain),
        changed("300 formulas in front that are kept", |image| {
            kept_chain(image);
            (0..300).for_each(|_| {
                insert_formula(image, 1, vec![28, 11, 8]);
            });
            for (number, line) in (1..).zip(&mut image.lines[..300]) {
                line.left = number;
            }
        }),
    ]
}

/// The line of the first obligation, which needs no premise, rests on 300 others.
fn kept_chain(image: &mut Written) {
    chain(image, 1, 300);
    image.lines[usize::from(image.obligations[0]) - 1].premises.push(300);
}

/// An image of each code: none is trimmed.
fn refused() -> Vec<TrimCase> {
    let with_rooms = |(code, image): (u16, Vec<u8>)| {
        [0, image.len() + 10].map(|room| TrimCase {
            label: format!("verdict {code}, {room} bytes"),
            image: image.clone(),
            room,
        })
    };
    by_code().into_iter().flat_map(with_rooms).collect()
}

/// Proofs by hand, and as much as there may be.
fn whole() -> Vec<TrimCase> {
    vec![
        exact("message passing", message_passing().bytes()),
        exact("two writes", two_writes().bytes()),
        exact("largest", largest()),
    ]
}

fn generated() -> Vec<TrimCase> {
    let images = (0..SEEDS).map(|seed| (seed, clutter::image(seed)));
    let short = images.filter(|(_, image)| image.len() <= LONGEST);
    let accepted = short.filter(|(_, image)| check(image).code == 0);
    accepted.map(|(seed, image)| exact(format!("generated from seed {seed}"), image)).collect()
}
