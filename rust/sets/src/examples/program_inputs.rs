//! Inputs of the program `verdict`: the one that is stored beside it, and those that its script tries. Expected lines are the independent
//! checker's.

use crate::generate::harness;
use reference::assemble::Plan;
use reference::checker::obligations::{duties, Duty};
use reference::checker::{check_within, limits};
use reference::formula::parse::Counts;
use reference::image::written::Written;
use reference::image::{Access, Header, Thread};

/// An input and the line that the program is to write for it.
pub struct Input {
    pub name: &'static str,
    pub bytes: Vec<u8>,
    pub line: String,
}

/// Instructions of each thread: with these the failure below comes after more than 255 obligations.
const LENGTHS: [u8; 4] = [9, 9, 8, 3];
/// The obligation that fails: the load at point 7 of thread 2 against point 5 of thread 3.
const FAILING: Duty = Duty::Kept { actor: 2, action: 7, thread: 3, point: 5 };
/// The line that it names, which concludes something else.
const LINE: u16 = 300;
/// The most bytes of a formula.
const FORMULA_BYTES: usize = 255;
/// The bytes around a record's body.
const AROUND: usize = 4;

/// The input that is stored beside the program: a failure of class 4 whose nine numbers are unlike, with a line and a count above 255.
pub fn stored() -> Input {
    let plan = loads();
    let mut image = plan.written();
    let place = duties(&plan.program.threads).iter().position(|duty| *duty == FAILING);
    image.lines.resize(LINE.into(), image.lines[0].clone());
    image.obligations[place.expect("there is such an obligation")] = LINE;
    input("stored", image.bytes())
}

/// All that the script tries besides.
pub fn all() -> Vec<Input> {
    let most = limits::PROGRAM_BYTES;
    let accepted = loads().written();
    vec![
        // Three digits make a line of 19 characters.
        input("count above 255", accepted.bytes()),
        input("as long as may be", padded(&accepted, most)),
        input("one byte too long", padded(&accepted, most + 1)),
        input("zeros, as long as may be", vec![0; most]),
        input("zeros, one byte too long", vec![0; most + 1]),
        stored(),
    ]
}

fn input(name: &'static str, bytes: Vec<u8>) -> Input {
    let line = check_within(&bytes, limits::PROGRAM_BYTES).to_string();
    Input { name, bytes, line }
}

/// Four threads that load; every assertion is "true", and every obligation is met.
fn loads() -> Plan {
    let threads = LENGTHS.len() as u8;
    let counts = Counts { threads, words: 1, registers: threads, range: 8 };
    let header = Header::cleared(counts, vec![0], (1..=threads).collect());
    let code = |(register, length): (u8, u8)| -> Thread {
        (0..length).map(|_| Access::Load { register, word: 1, acquiring: true }.into()).collect()
    };
    harness::plan(harness::program(header, (1..).zip(LENGTHS).map(code).collect()))
}

/// The image with formulas that nothing uses, up to a length.
fn padded(image: &Written, length: usize) -> Vec<u8> {
    let mut image = image.clone();
    // Records as long as may be, and of what is left two halves, which are long enough for a formula.
    let (most, rest) = (FORMULA_BYTES + AROUND, length - image.bytes().len());
    let (whole, left) = (rest / most - 1, rest % most + most);
    let records = [vec![most; whole], vec![left / 2, left - left / 2]].concat();
    image.formulas.extend(records.iter().map(|bytes| test_of(bytes - AROUND)));
    image.bytes()
}

/// A test of so many bytes, nested no deeper than need be.
fn test_of(bytes: usize) -> Vec<u8> {
    match bytes {
        1 => vec![8],
        2 => vec![11, 8],
        _ => {
            let half = (bytes - 1) / 2;
            [vec![12], test_of(half), test_of(bytes - 1 - half)].concat()
        }
    }
}

#[cfg(test)]
mod tests {
    use super::*;

    #[test]
    fn numbers_are_unlike_and_lines_have_their_length() {
        assert_eq!(stored().line, "21 0 4 3 5 2 7 300 416");
        let told: Vec<(String, usize)> =
            all().into_iter().map(|input| (input.line, input.bytes.len())).collect();
        let lines: Vec<&str> = told.iter().map(|(line, _)| line.as_str()).collect();
        let too_long = "2 0 0 0 0 0 0 0 0";
        let accepted = "0 0 0 0 0 0 0 0 726";
        assert_eq!(lines[..3], [accepted, accepted, too_long]);
        assert_eq!(lines[4..], [too_long, "21 0 4 3 5 2 7 300 416"]);
        assert_eq!(accepted.len(), 19);
        let lengths: Vec<usize> = told.iter().map(|(_, length)| *length).collect();
        assert_eq!(lengths[1..5], [65_535, 65_536, 65_535, 65_536]);
    }

    /// What lies beside the program is what this makes, and its line is the independent checker's.
    #[test]
    fn the_stored_input_is_this_one() {
        let folder = concat!(env!("CARGO_MANIFEST_DIR"), "/../../crates/verdict");
        let read = |name: &str| std::fs::read(format!("{folder}/{name}")).expect("it is stored");
        let Input { bytes, line, .. } = stored();
        assert!(read("stdin") == bytes, "the stored input is another one");
        assert_eq!(String::from_utf8(read("stdout")), Ok(line + "\n"));
    }
}
