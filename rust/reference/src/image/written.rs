//! An image as it is written: formulas as bytes, and formulas, lines and premises by number.
//!
//! Reading here looks at lengths alone; the checker judges the numbers.

use super::{Claim, Header, Meeting};
use crate::checker::frames::{self, number_at};
use crate::formula::parse::Counts;

/// All that the records of an image say. Formulas and lines count from 1.
#[derive(Clone, Debug, PartialEq, Eq)]
pub struct Written {
    pub header: Header,
    /// The prefix form of each formula.
    pub formulas: Vec<Vec<u8>>,
    pub threads: Vec<Vec<Instruction>>,
    /// A formula for each point, threads in order.
    pub outline: Vec<u16>,
    pub lines: Vec<Line>,
    /// A line for each obligation, 0 for none.
    pub obligations: Vec<u16>,
    pub claims: Vec<Claim>,
}

/// An instruction; operations 9 to 12 have a second half.
#[derive(Clone, Copy, Debug, PartialEq, Eq, Hash)]
pub struct Instruction {
    pub first: Half,
    pub second: Option<Half>,
}

/// The fields of an instruction, or of a half of it.
#[derive(Clone, Copy, Debug, PartialEq, Eq, Hash)]
pub struct Half {
    pub operation: u8,
    pub a: u8,
    pub b: u8,
    /// 0 for none.
    pub formula: u16,
}

/// The fields of a line.
#[derive(Clone, Debug, PartialEq, Eq, Hash)]
pub struct Line {
    pub rule: u8,
    pub thread: u8,
    pub point: u8,
    pub left: u16,
    pub right: u16,
    pub premises: Vec<u16>,
}

/// One record to be written.
#[derive(Clone, Debug, PartialEq, Eq)]
pub struct Record {
    pub kind: u16,
    pub body: Vec<u8>,
}

impl Record {
    pub fn new(kind: u16, body: impl Into<Vec<u8>>) -> Record {
        Record { kind, body: body.into() }
    }

    /// The record's bytes, its length field first.
    pub fn bytes(&self) -> Vec<u8> {
        let length = (self.body.len() + 2) as u16;
        [&length.to_le_bytes()[..], &self.kind.to_le_bytes(), &self.body].concat()
    }
}

/// The bytes of an image with these records.
pub fn image_bytes(records: &[Record]) -> Vec<u8> {
    records.iter().flat_map(Record::bytes).collect()
}

impl Written {
    /// What an image says whose frames and lengths are in order; none for any other.
    pub fn read(image: &[u8]) -> Option<Written> {
        let records = frames::split(image).ok()?;
        let bodies = |kind: u16| records.iter().filter(move |r| r.kind == kind).map(|r| r.body);
        Some(Written {
            header: Header::read(bodies(frames::HEADER).next()?)?,
            formulas: bodies(frames::FORMULA).map(<[u8]>::to_vec).collect(),
            threads: bodies(frames::THREAD).map(instructions).collect::<Option<_>>()?,
            outline: numbers(bodies(frames::OUTLINE).next()?)?,
            lines: bodies(frames::LINE).map(Line::read).collect::<Option<_>>()?,
            obligations: numbers(bodies(frames::OBLIGATIONS).next()?)?,
            claims: bodies(frames::CLAIM).map(Claim::read).collect::<Option<_>>()?,
        })
    }

    /// The records, in their order.
    pub fn records(&self) -> Vec<Record> {
        let mut records = vec![Record::new(frames::HEADER, self.header.body())];
        let formulas = self.formulas.iter();
        records.extend(formulas.map(|bytes| Record::new(frames::FORMULA, bytes.clone())));
        let threads = self.threads.iter();
        records.extend(threads.map(|code| Record::new(frames::THREAD, thread_body(code))));
        records.push(Record::new(frames::OUTLINE, numbers_body(&self.outline)));
        records.extend(self.lines.iter().map(|line| Record::new(frames::LINE, line.body())));
        records.push(Record::new(frames::OBLIGATIONS, numbers_body(&self.obligations)));
        records.extend(self.claims.iter().map(|claim| Record::new(frames::CLAIM, claim.body())));
        records
    }

    /// The bytes of the image.
    pub fn bytes(&self) -> Vec<u8> {
        image_bytes(&self.records())
    }
}

impl Header {
    /// Counts, range, start values, owners and marks; none if there are more or fewer than the counts say.
    pub fn read(body: &[u8]) -> Option<Header> {
        let (&[threads, words, registers, range], rest) = body.split_first_chunk()?;
        let (start, rest) = rest.split_at_checked(usize::from(words))?;
        let (owners, marks) = rest.split_at_checked(usize::from(registers))?;
        (marks.len() == usize::from(registers)).then(|| Header {
            counts: Counts { threads, words, registers, range },
            start: start.to_vec(),
            owners: owners.to_vec(),
            marks: marks.to_vec(),
        })
    }

    fn body(&self) -> Vec<u8> {
        let Counts { threads, words, registers, range } = self.counts;
        [&[threads, words, registers, range][..], &self.start, &self.owners, &self.marks].concat()
    }
}

/// The instructions of a thread's body: one less than its points, of which 0 is taken as 1.
pub fn instructions(body: &[u8]) -> Option<Vec<Instruction>> {
    let (&points, mut rest) = body.split_first()?;
    let mut code = Vec::new();
    for _ in 1..points {
        let (instruction, behind) = Instruction::front(rest)?;
        code.push(instruction);
        rest = behind;
    }
    rest.is_empty().then_some(code)
}

impl Instruction {
    /// The first instruction and the bytes behind it. Its first byte alone says how long it is.
    fn front(bytes: &[u8]) -> Option<(Instruction, &[u8])> {
        let (first, rest) = Half::front(bytes)?;
        if !matches!(first.operation, 9..=12) {
            return Some((Instruction { first, second: None }, rest));
        }
        let (second, rest) = Half::front(rest)?;
        Some((Instruction { first, second: Some(second) }, rest))
    }

    fn bytes(&self) -> impl Iterator<Item = u8> {
        [self.first].into_iter().chain(self.second).flat_map(|half| half.bytes())
    }
}

impl Half {
    const BYTES: usize = 5;

    fn front(bytes: &[u8]) -> Option<(Half, &[u8])> {
        let (&[operation, a, b, low, high], rest) = bytes.split_first_chunk::<{ Half::BYTES }>()?;
        let formula = u16::from_le_bytes([low, high]);
        Some((Half { operation, a, b, formula }, rest))
    }

    fn bytes(&self) -> [u8; Half::BYTES] {
        let [low, high] = self.formula.to_le_bytes();
        [self.operation, self.a, self.b, low, high]
    }
}

fn thread_body(code: &[Instruction]) -> Vec<u8> {
    let points = code.len() as u8 + 1;
    [points].into_iter().chain(code.iter().flat_map(Instruction::bytes)).collect()
}

impl Line {
    const FIXED_BYTES: usize = 8;

    /// The line's fields; none if there are more or fewer premises than their count says.
    pub fn read(body: &[u8]) -> Option<Line> {
        let (fixed, behind) = body.split_at_checked(Line::FIXED_BYTES)?;
        let premises = numbers(behind)?;
        (premises.len() == usize::from(fixed[7])).then_some(Line {
            rule: fixed[0],
            thread: fixed[1],
            point: fixed[2],
            left: number_at(fixed, 3)?,
            right: number_at(fixed, 5)?,
            premises,
        })
    }

    fn body(&self) -> Vec<u8> {
        let mut body = vec![self.rule, self.thread, self.point];
        body.extend(numbers_body(&[self.left, self.right]));
        body.push(self.premises.len() as u8);
        body.extend(numbers_body(&self.premises));
        body
    }
}

impl Claim {
    /// The claim's fields; none if there are more or fewer bytes.
    pub fn read(body: &[u8]) -> Option<Claim> {
        let &[thread, point, other_thread, other_point, low, high] = body else {
            return None;
        };
        let meeting = Meeting { thread, point, other_thread, other_point };
        Some(Claim { meeting, line: u16::from_le_bytes([low, high]) })
    }

    fn body(&self) -> Vec<u8> {
        let Meeting { thread, point, other_thread, other_point } = self.meeting;
        let [low, high] = self.line.to_le_bytes();
        vec![thread, point, other_thread, other_point, low, high]
    }
}

/// The numbers of a body that consists of 16-bit numbers.
pub fn numbers(body: &[u8]) -> Option<Vec<u16>> {
    let pairs = body.chunks_exact(2);
    let whole = pairs.remainder().is_empty();
    whole.then(|| pairs.map(|pair| u16::from_le_bytes([pair[0], pair[1]])).collect())
}

fn numbers_body(numbers: &[u16]) -> Vec<u8> {
    numbers.iter().flat_map(|number| number.to_le_bytes()).collect()
}
