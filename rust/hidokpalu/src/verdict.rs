//! The verdict on an image.

use crate::calls::check_image;
use crate::header::{
    ACCEPTED, AT_CLASS, AT_CODE, AT_COUNT, AT_LINE, AT_OTHER_POINT, AT_OTHER_THREAD, AT_POINT,
    AT_RECORD, AT_THREAD, BODY, CLAIM, FORMULA, INTERFERENCE, KIND, LENGTH, NO_LINE, NUMBER,
    OPERAND, OTHER_CONCLUSION, OWNER, RECORD_BYTES, SIZE, SORT, START, STEP, TAKEN, UNJUSTIFIED,
};

/// The verdict on an image. Records, threads and lines count from 1, points from 0.
#[derive(Clone, Copy, Debug, PartialEq, Eq, Hash)]
pub enum Verdict {
    /// Every obligation is met and every claim is borne out: in every run of the program each thread's assertion at its point is true.
    Accepted { obligations: u16 },
    /// The bytes are not those of an image. A fault of the whole has record 0.
    Malformed { fault: Fault, record: u16 },
    /// The first obligation that is not met, the line that it names, and how many are met before it.
    Unmet { reason: Reason, obligation: Obligation, line: u16, met: u16 },
    /// Every obligation is met; this is the first claim that is not borne out, with its record, its two points and its line.
    ClaimFails { record: u16, points: [Point; 2], line: u16, met: u16 },
}

/// What is wrong with the bytes.
#[derive(Clone, Copy, Debug, PartialEq, Eq, Hash)]
#[repr(u16)]
pub enum Fault {
    /// Empty, or too long.
    Size = SIZE,
    /// A record's length is cut short, under 2 or past the end.
    Length = LENGTH,
    /// A record's kind is unknown, misplaced, too often there or missing.
    Kind = KIND,
    /// A body is too short or too long.
    Body = BODY,
    /// A number is outside its range, or an unused field is not 0.
    Number = NUMBER,
    /// The bytes of a formula are malformed.
    Formula = FORMULA,
    /// A formula has the wrong sort where it is used.
    Sort = SORT,
    /// An instruction has another thread's register.
    Owner = OWNER,
    /// The operand of an exchange or a fetch-add names its result register.
    Operand = OPERAND,
}

/// Why an obligation is not met.
#[derive(Clone, Copy, Debug, PartialEq, Eq, Hash)]
#[repr(u16)]
pub enum Reason {
    /// It names no line of the certificate.
    NoLine = NO_LINE,
    /// Its line concludes something else.
    OtherConclusion = OTHER_CONCLUSION,
    /// Its line is not justified.
    Unjustified = UNJUSTIFIED,
}

/// The class of an obligation.
#[derive(Clone, Copy, Debug, PartialEq, Eq, Hash)]
#[repr(u16)]
pub enum Class {
    /// The start state gives the thread's point 0.
    Start = START,
    /// The instruction at the point leads to the next point's assertion.
    Step = STEP,
    /// The branch at the point, taken, leads to its target's assertion.
    Taken = TAKEN,
    /// The other thread's instruction keeps the assertion at the point.
    Interference = INTERFERENCE,
}

/// A point of a thread.
#[derive(Clone, Copy, Debug, PartialEq, Eq, Hash)]
pub struct Point {
    pub thread: u16,
    pub point: u16,
}

/// An obligation: its class, its point, and of interference the point of the thread that acts.
#[derive(Clone, Copy, Debug, PartialEq, Eq, Hash)]
pub struct Obligation {
    pub class: Class,
    pub at: Point,
    pub other: Option<Point>,
}

/// Judges an image.
pub fn check(image: &[u8]) -> Verdict {
    let mut record = [0; RECORD_BYTES];
    check_image(image, &mut record);
    Verdict::of_record(&record).expect("the call writes a verdict")
}

impl Verdict {
    pub fn is_accepted(&self) -> bool {
        matches!(self, Verdict::Accepted { .. })
    }

    /// The number that the call returns.
    pub fn code(&self) -> u16 {
        match *self {
            Verdict::Accepted { .. } => ACCEPTED,
            Verdict::Malformed { fault, .. } => fault as u16,
            Verdict::Unmet { reason, .. } => reason as u16,
            Verdict::ClaimFails { .. } => CLAIM,
        }
    }

    /// The verdict that a record carries; none if no verdict has such a code or class.
    pub fn of_record(record: &[u8; RECORD_BYTES]) -> Option<Verdict> {
        let number = |at: usize| u16::from_le_bytes([record[at], record[at + 1]]);
        let at = Point { thread: number(AT_THREAD), point: number(AT_POINT) };
        let other = Point { thread: number(AT_OTHER_THREAD), point: number(AT_OTHER_POINT) };
        let (record, line, met) = (number(AT_RECORD), number(AT_LINE), number(AT_COUNT));
        let code = number(AT_CODE);
        if let Some(fault) = Fault::of(code) {
            return Some(Verdict::Malformed { fault, record });
        }
        if let Some(reason) = Reason::of(code) {
            let class = Class::of(number(AT_CLASS))?;
            let other = (class == Class::Interference).then_some(other);
            let obligation = Obligation { class, at, other };
            return Some(Verdict::Unmet { reason, obligation, line, met });
        }
        match code {
            ACCEPTED => Some(Verdict::Accepted { obligations: met }),
            CLAIM => Some(Verdict::ClaimFails { record, points: [at, other], line, met }),
            _ => None,
        }
    }
}

impl Fault {
    const ALL: [Fault; 9] = [
        Fault::Size,
        Fault::Length,
        Fault::Kind,
        Fault::Body,
        Fault::Number,
        Fault::Formula,
        Fault::Sort,
        Fault::Owner,
        Fault::Operand,
    ];

    fn of(code: u16) -> Option<Fault> {
        Fault::ALL.into_iter().find(|&fault| fault as u16 == code)
    }
}

impl Reason {
    const ALL: [Reason; 3] = [Reason::NoLine, Reason::OtherConclusion, Reason::Unjustified];

    fn of(code: u16) -> Option<Reason> {
        Reason::ALL.into_iter().find(|&reason| reason as u16 == code)
    }
}

impl Class {
    const ALL: [Class; 4] = [Class::Start, Class::Step, Class::Taken, Class::Interference];

    fn of(number: u16) -> Option<Class> {
        Class::ALL.into_iter().find(|&class| class as u16 == number)
    }
}
