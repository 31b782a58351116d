//! Images that the tests vary.

use reference::checker::{check, decode};
use reference::formula::parse::Counts;
use reference::image::written::{Half, Instruction, Line, Written};
use reference::image::{Header, Program};

/// `holds not false`, `start`, `false`, the constant 0.
pub const TRUTH: u16 = 1;
pub const START: u16 = 2;
pub const FALSE: u16 = 3;
pub const ZERO: u16 = 4;

/// From this formula to that one, by a rule without premises.
pub fn line(rule: u8, left: u16, right: u16) -> Line {
    Line { rule, thread: 0, point: 0, left, right, premises: Vec::new() }
}

/// An accepted image: so many threads without instructions, two words, three registers of thread 1, range 8.
pub fn small(threads: u8) -> Written {
    let counts = Counts { threads, words: 2, registers: 3, range: 8 };
    let count = usize::from(threads);
    Written {
        header: Header::cleared(counts, vec![0, 0], vec![1; 3]),
        formulas: vec![vec![28, 11, 8], vec![27], vec![8], vec![0, 0]],
        threads: vec![Vec::new(); count],
        outline: vec![TRUTH; count],
        lines: vec![line(20, START, TRUTH)],
        obligations: vec![1; count],
        claims: Vec::new(),
    }
}

/// An instruction of one half.
pub fn single(operation: u8, a: u8, b: u8, formula: u16) -> Instruction {
    Instruction { first: Half { operation, a, b, formula }, second: None }
}

/// The same with an assignment behind it.
pub fn double(operation: u8, a: u8, b: u8, formula: u16, register: u8, value: u16) -> Instruction {
    let second = Half { operation: 0, a: register, b: 0, formula: value };
    Instruction { second: Some(second), ..single(operation, a, b, formula) }
}

/// Thread 1 of a small image gets these instructions; no obligation but those of the start names a line.
pub fn with_code(threads: u8, code: Vec<Instruction>) -> Written {
    let mut image = small(threads);
    let branches = code.iter().filter(|one| one.first.operation == 6).count();
    let others = usize::from(threads) - 1;
    let added = code.len() + branches + (code.len() - branches) * others;
    image.outline.splice(..1, vec![TRUTH; code.len() + 1]);
    image.obligations.extend(vec![0; added]);
    image.threads[0] = code;
    image
}

/// The code of an image's verdict.
pub fn code(image: &Written) -> u16 {
    check(&image.bytes()).code
}

/// The codes of images that are not malformed.
pub fn is_well_formed(code: u16) -> bool {
    !matches!(code, 2..=9 | 23)
}

/// The program of a well-formed image.
pub fn program(image: &Written) -> Program {
    decode(&image.bytes()).expect("well formed").program
}
