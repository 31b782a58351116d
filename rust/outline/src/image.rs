//! Images in files: within their limits when written, and in order when read.

use reference::checker::{decode, limits, Refusal};
use reference::formula::parse::parse;
use reference::formula::Formula;
use reference::image::written::Written;
use reference::image::Program;

/// The bytes, or the limit that is passed.
pub fn to_bytes(image: &Written) -> Result<Vec<u8>, String> {
    at_most("formulas", image.formulas.len(), limits::FORMULAS)?;
    at_most("lines", image.lines.len(), limits::LINES)?;
    let bytes = image.bytes();
    at_most("bytes of the image", bytes.len(), limits::IMAGE_BYTES)?;
    Ok(bytes)
}

fn at_most(what: &str, n: usize, most: usize) -> Result<(), String> {
    if n > most {
        return Err(format!("{n} {what}; an image holds at most {most}"));
    }
    Ok(())
}

/// An image that was read: its program, and all that it says by number.
#[derive(Debug, Clone)]
pub struct Image {
    pub program: Program,
    pub formulas: Vec<Formula>,
    pub written: Written,
}

impl Image {
    /// Formulas count from 1.
    pub fn formula(&self, number: u16) -> &Formula {
        &self.formulas[usize::from(number) - 1]
    }
}

/// Reads an image that the checker would judge.
pub fn read(bytes: &[u8]) -> Result<Image, String> {
    let program = decode(bytes).map_err(described)?.program;
    let written = Written::read(bytes).expect("its lengths are in order");
    let counts = program.header.counts;
    let formulas = written.formulas.iter().map(|f| parse(f, counts).expect("well formed"));
    let formulas = formulas.collect();
    Ok(Image { program, formulas, written })
}

/// A refusal in words.
fn described(Refusal { code, record }: Refusal) -> String {
    format!("record {record}: {} (code {code})", fault(code))
}

/// What a code below 20, or 23, says of a record.
pub fn fault(code: u16) -> &'static str {
    match code {
        2 => "the image is empty or too long",
        3 => "its length is cut short or past the end",
        4 => "its kind is out of place, or a record is missing here",
        5 => "too short or too long",
        6 => "a number is out of range",
        7 => "the bytes are no formula",
        8 => "a formula does not fit where it is used",
        9 => "an instruction names another thread's register",
        _ => "an operand names the register that gets the old value",
    }
}

#[cfg(test)]
mod tests {
    use super::*;

    /// The scope page's first small image, of range 8.
    const SMALL: [u8; 50] = [
        7, 0, 1, 0, 1, 1, 0, 8, 0, 5, 0, 2, 0, 0x1c, 0x0b, 8, 3, 0, 2, 0, 0x1b, 3, 0, 3, 0, 1, 4,
        0, 4, 0, 1, 0, 10, 0, 5, 0, 0x14, 0, 0, 2, 0, 1, 0, 0, 4, 0, 6, 0, 1, 0,
    ];

    #[test]
    fn the_small_image_is_read_and_written() {
        let image = read(&SMALL).unwrap();
        assert_eq!(image.written.lines.len(), 1);
        assert_eq!(to_bytes(&image.written).unwrap(), SMALL);
    }

    #[test]
    fn damage_is_named_by_record() {
        let longer = [&SMALL[..], &[0]].concat();
        assert!(read(&SMALL[..49]).unwrap_err().starts_with("record 7: its length"));
        assert!(read(&SMALL[..44]).unwrap_err().contains("missing here"));
        assert!(read(&longer).unwrap_err().starts_with("record 8"));
    }
}
