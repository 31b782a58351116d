//! How much an image may have.

/// The longest image that is read at all.
pub const IMAGE_BYTES: usize = 262_144;
/// The longest that the program `verdict` reads.
pub const PROGRAM_BYTES: usize = 65_535;

pub const THREADS: u8 = 4;
pub const WORDS: u8 = 8;
pub const REGISTERS: u8 = 16;
/// Points of a thread.
pub const POINTS: u8 = 16;
pub const FORMULAS: usize = 500;
pub const LINES: usize = 4000;
pub const CLAIMS: usize = 16;
