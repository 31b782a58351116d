//! What is tried, and how it is stored.

#[derive(Clone, Copy, Debug, PartialEq, Eq)]
pub enum Kind {
    /// Two tests: a value of the range for each register and word, true or false for each flag; 4,096 rows.
    Tests { range: u8 },
    /// Implications between assertions: true or false for each claim; 1,024 rows.
    Table,
}

impl Kind {
    /// With more rows than this the answer is no.
    pub fn most_rows(self) -> usize {
        match self {
            Kind::Tests { .. } => 4096,
            Kind::Table => 1024,
        }
    }
}

/// Formulas in bytes, and where they stand: left and right of the line, then of each premise, 16 bits
/// each, little-endian. Tests have no premises.
#[derive(Clone, Debug)]
pub struct Input {
    pub kind: Kind,
    pub body: Vec<u8>,
    pub places: Vec<u8>,
}

impl Input {
    /// A line and its premises, each with a left and a right formula.
    pub fn new(kind: Kind, implications: &[[&[u8]; 2]]) -> Input {
        let mut input = Input { kind, body: Vec::new(), places: Vec::new() };
        for formula in implications.as_flattened() {
            input.places.extend((input.body.len() as u16).to_le_bytes());
            input.body.extend(*formula);
        }
        input
    }

    /// The position with a number; 0 past the end.
    pub fn place(&self, number: usize) -> usize {
        let byte = |at| self.places.get(at).copied().unwrap_or(0) as usize;
        byte(2 * number) + 256 * byte(2 * number + 1)
    }

    /// How many implications there are. A part of a pair does not count, nor does a sixth one; the line
    /// always does.
    pub fn implications(&self) -> usize {
        (self.places.len() / 4).clamp(1, 5)
    }
}

/// Whether the line is true at every row at which the premises are.
pub type Judge = fn(&Input) -> bool;
