//! Damage to images: bytes changed, cut off and added, and records written anew.

use crate::random::Random;

/// Where the records start, of an image whose frames are in order.
fn starts(image: &[u8]) -> Vec<usize> {
    let (mut starts, mut at) = (Vec::new(), 0);
    while at < image.len() {
        starts.push(at);
        at += 2 + u16::from_le_bytes([image[at], image[at + 1]]) as usize;
    }
    starts
}

/// A position in a record chosen first, so that short records are met as often as long ones.
fn position(random: &mut Random, starts: &[usize], end: usize) -> usize {
    let i = random.below(starts.len());
    let next = starts.get(i + 1).copied().unwrap_or(end);
    starts[i] + random.below(next - starts[i])
}

/// Another value for a byte: one off, one bit off, a low one, or any.
fn changed(random: &mut Random, byte: u8) -> u8 {
    match random.below(5) {
        0 => byte.wrapping_add(1),
        1 => byte.wrapping_sub(1),
        2 => byte ^ (1 << random.below(8)),
        3 => random.below(34) as u8,
        _ => random.below(256) as u8,
    }
}

/// Short formulas of each sort, with and without words, flags and `start`.
const FORMULAS: [&[u8]; 12] = [
    &[0, 7],
    &[1, 1],
    &[2, 1],
    &[3, 1, 1, 0, 1],
    &[8],
    &[9, 1, 1, 2, 1],
    &[14, 1],
    &[15, 1],
    &[17, 1],
    &[24, 1, 17, 1],
    &[27],
    &[28, 8],
];

/// Those that code 23 is about, and those that have ten bytes.
const OPERATIONS: [u8; 12] = [7, 8, 7, 8, 7, 8, 7, 8, 9, 10, 11, 12];

const FORMULA: u8 = 2;
const THREAD: u8 = 3;
const LINE: u8 = 5;

/// Another body for a record, of the length that it says: what a change of single bytes does not reach.
fn rewrite(random: &mut Random, kind: u8, body: &mut Vec<u8>) {
    match kind {
        FORMULA if random.below(4) == 0 => body.resize(254 + random.below(4), 11),
        FORMULA => *body = FORMULAS[random.below(FORMULAS.len())].to_vec(),
        // An exchange or fetch-add of some register, which its operand may name, or an operation of ten bytes.
        THREAD if body.len() > 1 && random.below(8) > 0 => {
            let at = if random.below(2) == 0 { 1 } else { 1 + 5 * random.below(body.len() / 5) };
            body[at] = OPERATIONS[random.below(OPERATIONS.len())];
            body[at + 1] = 1;
            body[at + 2] = 1 + random.below(4) as u8;
        }
        // Instructions are copied until there are up to 17 points.
        THREAD if body.len() > 1 => {
            let instruction: Vec<u8> = body[1..6].to_vec();
            for _ in 0..1 + random.below(17) {
                if body[0] <= 16 {
                    body.extend(&instruction);
                    body[0] += 1;
                }
            }
        }
        // Premises up to the fifth.
        LINE => {
            for _ in 0..1 + random.below(5) {
                if body[7] <= 4 {
                    body.extend([1, 0]);
                    body[7] += 1;
                }
            }
        }
        _ => body.push(random.below(3) as u8),
    }
}

/// Writes a record anew.
fn rewrite_record(random: &mut Random, starts: &[usize], image: &mut Vec<u8>) {
    let i = random.below(starts.len());
    let (at, next) = (starts[i], starts.get(i + 1).copied().unwrap_or(image.len()));
    let mut body = image[at + 4..next].to_vec();
    rewrite(random, image[at + 2], &mut body);
    let [low, high] = (body.len() as u16 + 2).to_le_bytes();
    image[at] = low;
    image[at + 1] = high;
    image.splice(at + 4..next, body);
}

/// A length past which no image is read.
const TOO_LONG: usize = 262_145;

pub fn damage(random: &mut Random, image: &mut Vec<u8>) {
    let starts = starts(image);
    match random.below(1000) {
        0 => image.clear(),
        1 => image.resize(TOO_LONG + random.below(2), 0),
        2..=19 => image.truncate(random.below(image.len())),
        20..=29 => image.push(random.below(34) as u8),
        // A byte of the header: its counts, range, start values, owners and marks.
        30..=149 => {
            let at = 4 + random.below(starts[1] - 4);
            image[at] = changed(random, image[at]);
        }
        150..=449 => rewrite_record(random, &starts, image),
        // One to three bytes anywhere.
        _ => {
            for _ in 0..1 + random.below(3) {
                let at = position(random, &starts, image.len());
                image[at] = changed(random, image[at]);
            }
        }
    }
}
