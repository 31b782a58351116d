//! Stored sets read back and judged again.
//!
//! Those of trimming, of bills, of replay and of a service are in [`trims`], [`bills`], [`replays`] and [`service`].
//!
//! A container of images has for each case its length (32 bits), the image, the nine fields of its
//! verdict (16 bits each); one of formulas their length (32 bits), bytes, threads, words, registers and
//! range (a byte each), result and sort (16 bits each). All numbers are little-endian.

pub mod bills;
pub mod crossings;
pub mod handovers;
pub mod replays;
pub mod service;
pub mod trims;

use crate::bill::Tariff;
use crate::checker::check;
use crate::formula::parse::{parse, Counts, Fault};
use crate::formula::Sort;

/// An image of a container, with the nine fields stored for it.
pub struct StoredImage<'a> {
    pub image: &'a [u8],
    pub fields: [u16; 9],
}

/// A front part of the bytes, which is taken off; none if they are too few.
fn take<'a>(bytes: &mut &'a [u8], count: usize) -> Option<&'a [u8]> {
    let (front, rest) = bytes.split_at_checked(count)?;
    *bytes = rest;
    Some(front)
}

/// A 32-bit number from the front.
fn length(bytes: &mut &[u8]) -> Option<usize> {
    let bytes = take(bytes, 4)?.try_into().ok()?;
    usize::try_from(u32::from_le_bytes(bytes)).ok()
}

/// A 16-bit number from the front.
fn number(bytes: &mut &[u8]) -> Option<u16> {
    let pair = take(bytes, 2)?;
    Some(u16::from_le_bytes([pair[0], pair[1]]))
}

/// The body in front of a case: how many bytes follow (32 bits), and these.
fn body<'a>(bytes: &mut &'a [u8]) -> Option<&'a [u8]> {
    let count = length(bytes)?;
    take(bytes, count)
}

/// The prices of the classes 1 to 4 and the least charge (16 bits each).
fn tariff(bytes: &mut &[u8]) -> Option<Tariff> {
    Some(Tariff {
        start: number(bytes)?,
        step: number(bytes)?,
        taken: number(bytes)?,
        interference: number(bytes)?,
        least: number(bytes)?,
    })
}

/// The cases of a container, one behind the other, each read from the front; none if the last is cut short.
fn all<'a, C>(mut bytes: &'a [u8], case: impl Fn(&mut &'a [u8]) -> Option<C>) -> Option<Vec<C>> {
    let mut cases = Vec::new();
    while !bytes.is_empty() {
        cases.push(case(&mut bytes)?);
    }
    Some(cases)
}

/// Whether a buffer has these in front, and behind them what was there before.
fn holds<T: Copy + PartialEq>(room: &[T], front: &[T], before: T) -> bool {
    let (start, behind) = room.split_at(front.len().min(room.len()));
    start == front && behind.iter().all(|&item| item == before)
}

/// The cases of a container of images; none if it is cut short.
pub fn stored_images(bytes: &[u8]) -> Option<Vec<StoredImage<'_>>> {
    all(bytes, |bytes| {
        let image = body(bytes)?;
        let mut fields = [0; 9];
        for field in &mut fields {
            *field = number(bytes)?;
        }
        Some(StoredImage { image, fields })
    })
}

/// For each case of a container of images whether its verdict is still the same.
pub fn images(bytes: &[u8]) -> Option<Vec<bool>> {
    let cases = stored_images(bytes)?;
    Some(cases.iter().map(|case| check(case.image).fields() == case.fields).collect())
}

/// For each case of a container of formulas whether its answer is still the same.
pub fn formulas(bytes: &[u8]) -> Option<Vec<bool>> {
    all(bytes, |bytes| {
        let formula = body(bytes)?;
        let &[threads, words, registers, range] = take(bytes, 4)? else {
            return None;
        };
        let counts = Counts { threads, words, registers, range };
        Some(answer(formula, counts) == [number(bytes)?, number(bytes)?])
    })
}

/// The result and sort of a formula: 0 accepted, 6 or 7; sort 0 if refused.
pub fn answer(formula: &[u8], counts: Counts) -> [u16; 2] {
    match parse(formula, counts) {
        Err(Fault::Range) => [6, 0],
        Err(Fault::Form) => [7, 0],
        Ok(formula) => match formula.sort() {
            Sort::Value => [0, 0],
            Sort::Test => [0, 1],
            Sort::Interval => [0, 2],
            Sort::Assertion => [0, 3],
        },
    }
}
