//! Formulas as trees. Each leaf, the same one wherever it comes again, is a digit of the row.

use super::input::{Input, Kind};

pub enum Formula {
    Constant(u8),
    Leaf(Leaf),
    Not(Box<Formula>),
    Join(Join, Box<[Formula; 2]>),
}

#[derive(Clone, Copy)]
pub enum Join {
    Sum,
    Equal,
    Less,
    And,
    Or,
}

/// A leaf has one of so many values: 2, or as many as the range for a register or a word.
#[derive(Clone, Copy)]
pub struct Leaf {
    pub number: usize,
    pub choices: u8,
}

impl Join {
    /// Tests are 1 for true, 0 for false; sums are modulo the range.
    #[inline(always)]
    pub fn of(self, a: u8, b: u8, range: u8) -> u8 {
        match self {
            Join::Sum => {
                let sum = a + b;
                if sum < range {
                    sum
                } else {
                    sum - range
                }
            }
            Join::Equal => (a == b) as u8,
            Join::Less => (a < b) as u8,
            Join::And => a & b,
            Join::Or => a | b,
        }
    }
}

pub struct Implication {
    pub left: Formula,
    pub right: Formula,
}

/// A line, its premises, and the leaves of all of them.
pub struct Claim {
    pub line: Implication,
    pub premises: Vec<Implication>,
    pub leaves: Vec<Leaf>,
    /// Sums are modulo it.
    pub range: u8,
}

impl Claim {
    pub fn new(input: &Input) -> Claim {
        let range = match input.kind {
            Kind::Tests { range } => range,
            Kind::Table => 2,
        };
        let mut reader = Reader { input, known: Vec::new(), leaves: Vec::new() };
        let line = reader.implication(0);
        let premises = (1..input.implications()).map(|i| reader.implication(i)).collect();
        Claim { line, premises, leaves: reader.leaves, range }
    }

    /// How many rows there are; nothing if they are too many.
    pub fn rows(&self, kind: Kind) -> Option<usize> {
        self.leaves.iter().try_fold(1, |rows, leaf| {
            let more = rows * usize::from(leaf.choices);
            (more <= kind.most_rows()).then_some(more)
        })
    }
}

struct Reader<'a> {
    input: &'a Input,
    /// The bytes of each leaf.
    known: Vec<&'a [u8]>,
    leaves: Vec<Leaf>,
}

impl<'a> Reader<'a> {
    fn implication(&mut self, number: usize) -> Implication {
        let (left, _) = self.formula(self.input.place(2 * number));
        let (right, _) = self.formula(self.input.place(2 * number + 1));
        Implication { left, right }
    }

    /// The formula at a position, which is well formed, and the position past it.
    fn formula(&mut self, at: usize) -> (Formula, usize) {
        let s = &self.input.body[..];
        let code = s[at];
        match (self.input.kind, code) {
            (Kind::Tests { range }, 1 | 2) => self.leaf(at, range),
            (Kind::Tests { .. }, 14 | 15) | (Kind::Table, 9 | 10 | 24 | 27) => self.leaf(at, 2),
            (_, 0) => (Formula::Constant(s[at + 1]), at + 2),
            (_, 8) => (Formula::Constant(0), at + 1),
            (_, 3) => self.join(Join::Sum, at),
            (_, 9) => self.join(Join::Equal, at),
            (_, 10) => self.join(Join::Less, at),
            (_, 12 | 25) => self.join(Join::And, at),
            (_, 13 | 26) => self.join(Join::Or, at),
            (_, 28) => self.formula(at + 1),
            (_, 11) => {
                let (part, end) = self.formula(at + 1);
                (Formula::Not(Box::new(part)), end)
            }
            _ => panic!("the code {code} does not stand in tests or assertions"),
        }
    }

    fn join(&mut self, join: Join, at: usize) -> (Formula, usize) {
        let (a, behind) = self.formula(at + 1);
        let (b, end) = self.formula(behind);
        (Formula::Join(join, Box::new([a, b])), end)
    }

    fn leaf(&mut self, at: usize, choices: u8) -> (Formula, usize) {
        let end = end(&self.input.body, at);
        let bytes = &self.input.body[at..end];
        let number = self.known.iter().position(|known| *known == bytes);
        let number = number.unwrap_or_else(|| {
            self.known.push(bytes);
            self.leaves.push(Leaf { number: self.leaves.len(), choices });
            self.leaves.len() - 1
        });
        (Formula::Leaf(self.leaves[number]), end)
    }
}

/// Goes on to the next row, the leaves counted up like digits; false after the last.
pub fn advance(digits: &mut [u8], leaves: &[Leaf]) -> bool {
    for (digit, leaf) in digits.iter_mut().zip(leaves) {
        *digit += 1;
        if *digit < leaf.choices {
            return true;
        }
        *digit = 0;
    }
    false
}

/// The position past a formula.
fn end(s: &[u8], at: usize) -> usize {
    match s[at] {
        8 | 27 => at + 1,
        0 | 1 | 2 | 14 | 15 | 17 => at + 2,
        24 => end(s, at + 2),
        11 | 16 | 28 => end(s, at + 1),
        _ => end(s, end(s, at + 1)),
    }
}
