//! The frames of an image's records: codes 2 to 4, and where each record starts.

use super::number;
use reference::checker::Refusal;

/// The longest image that is read.
const IMAGE_BYTES: usize = 262_144;

/// The kind that must come last but for claims, and theirs.
const OBLIGATIONS: usize = 6;
const CLAIM: usize = 8;

/// How many records of each kind there may be; there is no kind 0 and no kind 7.
const MOST: [usize; 9] = [0, 1, 500, 4, 1, 4000, 1, 0, 16];
const RECORDS: usize = 4523;

pub struct Frames<'a> {
    image: &'a [u8],
    starts: [usize; RECORDS],
    pub formulas: usize,
    pub threads: usize,
    pub lines: usize,
    pub claims: usize,
}

impl<'a> Frames<'a> {
    /// All frames, first to last.
    pub fn read(image: &'a [u8]) -> Result<Frames<'a>, Refusal> {
        if image.is_empty() || image.len() > IMAGE_BYTES {
            return Err(Refusal::at(2, 0));
        }
        let mut starts = [0; RECORDS];
        let mut counts = [0; 9];
        let (mut last, mut at, mut record) = (0, 0, 1);
        while at < image.len() {
            let left = image.len() - at;
            if left < 2 {
                return Err(Refusal::at(3, record));
            }
            let length = number(image, at);
            if length < 2 || length > left - 2 {
                return Err(Refusal::at(3, record));
            }
            let kind = number(image, at + 2);
            let next = if last == OBLIGATIONS { CLAIM } else { last + 1 };
            let in_order = kind == last || kind == next;
            if !in_order || kind > CLAIM || counts[kind] == MOST[kind] {
                return Err(Refusal::at(4, record));
            }
            counts[kind] += 1;
            last = kind;
            starts[record - 1] = at;
            at += 2 + length;
            record += 1;
        }
        if last != OBLIGATIONS && last != CLAIM {
            return Err(Refusal::at(4, record));
        }
        let [_, _, formulas, threads, _, lines, _, _, claims] = counts;
        Ok(Frames { image, starts, formulas, threads, lines, claims })
    }

    /// The body of a record, counted from 1.
    pub fn body(&self, record: usize) -> &'a [u8] {
        let at = self.starts[record - 1];
        &self.image[at + 4..at + 2 + number(self.image, at)]
    }

    /// The body of a formula, counted from 1.
    pub fn formula(&self, k: usize) -> &'a [u8] {
        self.body(1 + k)
    }

    /// The body of a thread, counted from 1.
    pub fn thread(&self, t: usize) -> &'a [u8] {
        self.body(1 + self.formulas + t)
    }

    /// Whether there is a formula of this number.
    pub fn has_formula(&self, k: usize) -> bool {
        (1..=self.formulas).contains(&k)
    }
}
