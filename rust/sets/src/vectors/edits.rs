//! Changes to the records of the tour image.

use super::tour::{self, Spare, SPARE_FORMULAS};
use super::Case;
use reference::checker::frames::{FORMULA, LINE};
use reference::image::written::{image_bytes, Record};

/// The tour image, to be changed and turned into a case.
#[derive(Clone)]
pub struct Draft {
    pub records: Vec<Record>,
}

impl Draft {
    pub fn new() -> Draft {
        Draft { records: tour::records() }
    }

    /// The index of the n-th record of a kind, counted from 0.
    pub fn index(&self, kind: u16, n: usize) -> usize {
        let of_kind = (0..self.records.len()).filter(|&index| self.records[index].kind == kind);
        of_kind.clone().nth(n).unwrap_or_else(|| panic!("record {n} of kind {kind}"))
    }

    pub fn count(&self, kind: u16) -> usize {
        self.records.iter().filter(|record| record.kind == kind).count()
    }

    /// The body of the n-th record of a kind.
    pub fn body(&mut self, kind: u16, n: usize) -> &mut Vec<u8> {
        let index = self.index(kind, n);
        &mut self.records[index].body
    }

    /// Sets one byte of a body.
    pub fn set(mut self, kind: u16, n: usize, place: usize, byte: u8) -> Draft {
        self.body(kind, n)[place] = byte;
        self
    }

    /// Sets one 16-bit number of a body.
    pub fn set_number(self, kind: u16, n: usize, place: usize, number: u16) -> Draft {
        let [low, high] = number.to_le_bytes();
        self.set(kind, n, place, low).set(kind, n, place + 1, high)
    }

    /// Replaces a body.
    pub fn put(mut self, kind: u16, n: usize, body: &[u8]) -> Draft {
        *self.body(kind, n) = body.to_vec();
        self
    }

    /// Appends bytes to a body.
    pub fn append(mut self, kind: u16, n: usize, bytes: &[u8]) -> Draft {
        self.body(kind, n).extend(bytes);
        self
    }

    /// Takes the last bytes from a body.
    pub fn shorten(mut self, kind: u16, n: usize, bytes: usize) -> Draft {
        let body = self.body(kind, n);
        body.truncate(body.len() - bytes);
        self
    }

    /// The number of a spare formula.
    pub fn spare(&self, which: Spare) -> u16 {
        (self.count(FORMULA) - SPARE_FORMULAS.len() + which as usize + 1) as u16
    }

    /// The number of the formula with these bytes.
    pub fn formula_number(&self, bytes: &[u8]) -> u16 {
        let formulas = self.records.iter().filter(|record| record.kind == FORMULA);
        let index = formulas.map(|record| &record.body[..]).position(|body| body == bytes);
        index.expect("such a formula") as u16 + 1
    }

    /// The index among lines of the first line of a rule.
    pub fn line_of_rule(&self, rule: u8) -> usize {
        let lines = self.records.iter().filter(|record| record.kind == LINE);
        lines.map(|record| record.body[0]).position(|other| other == rule).expect("such a line")
    }

    pub fn bytes(&self) -> Vec<u8> {
        image_bytes(&self.records)
    }

    pub fn case(&self, label: impl Into<String>) -> Case {
        Case::new(label, self.bytes())
    }
}

impl Default for Draft {
    fn default() -> Draft {
        Draft::new()
    }
}
