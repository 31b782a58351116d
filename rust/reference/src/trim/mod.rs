//! Trimmed images for the archive: the same program, outline and claims, the lines on which an obligation or a claim
//! rests, and the formulas that are still used, both in their old order and renumbered.

mod kept;

use crate::checker::accepted;
use crate::image::written::Written;
use kept::Kept;

/// The image is not accepted.
pub const NOT_ACCEPTED: u16 = 24;
/// The output is shorter than the trimmed image.
pub const OUTPUT_TOO_SHORT: u16 = 25;

/// What a call answers: its code, and how many bytes were written, 0 with an error.
#[derive(Clone, Copy, Debug, PartialEq, Eq)]
pub struct Answer {
    pub code: u16,
    pub length: usize,
}

/// The bytes of the image trimmed; none if it is not accepted.
pub fn trimmed(image: &[u8]) -> Option<Vec<u8>> {
    accepted(image)?;
    Written::read(image).map(|written| trim(written).bytes())
}

/// Writes the image trimmed to the front of `out`, or nothing; bytes behind it stay as they were.
pub fn trim_into(image: &[u8], out: &mut [u8]) -> Answer {
    put(trimmed(image).as_deref(), out)
}

/// Writes what was trimmed, if there is any and it has room.
pub fn put(trimmed: Option<&[u8]>, out: &mut [u8]) -> Answer {
    let Some(bytes) = trimmed else {
        return Answer { code: NOT_ACCEPTED, length: 0 };
    };
    match out.get_mut(..bytes.len()) {
        None => Answer { code: OUTPUT_TOO_SHORT, length: 0 },
        Some(front) => {
            front.copy_from_slice(bytes);
            Answer { code: 0, length: bytes.len() }
        }
    }
}

/// What a written image says without its dead lines and the formulas that no kept record names. Formulas with equal
/// bytes stay as many records as are named.
pub fn trim(mut image: Written) -> Written {
    let lines = kept_lines(&image);
    lines.filter(&mut image.lines);
    renumber(named_lines(&mut image), &lines);
    let formulas = used_formulas(&mut image);
    formulas.filter(&mut image.formulas);
    renumber(named_formulas(&mut image), &formulas);
    image
}

/// Puts new numbers in the place of old ones.
fn renumber<'a>(places: impl Iterator<Item = &'a mut u16>, kept: &Kept) {
    let numbers = kept.numbers();
    for place in places {
        *place = numbers[usize::from(*place)];
    }
}

/// The lines that an obligation or a claim names, and the premises that a kept line lists, needed or not.
fn kept_lines(image: &Written) -> Kept {
    let mut kept = Kept::none_of(image.lines.len());
    let claims = image.claims.iter().map(|claim| claim.line);
    for line in image.obligations.iter().copied().chain(claims) {
        kept.keep(line);
    }
    // Premises have lower numbers, so those of a line are marked before their turn comes.
    for (index, line) in image.lines.iter().enumerate().rev() {
        if kept.has(index as u16 + 1) {
            line.premises.iter().for_each(|&premise| kept.keep(premise));
        }
    }
    kept
}

/// The line numbers of obligations, claims and premises.
fn named_lines(image: &mut Written) -> impl Iterator<Item = &mut u16> {
    let claims = image.claims.iter_mut().map(|claim| &mut claim.line);
    let premises = image.lines.iter_mut().flat_map(|line| &mut line.premises);
    image.obligations.iter_mut().chain(claims).chain(premises)
}

/// The formulas that instructions, outline and lines name, of an image whose dead lines are gone.
fn used_formulas(image: &mut Written) -> Kept {
    let mut kept = Kept::none_of(image.formulas.len());
    for formula in named_formulas(image) {
        kept.keep(*formula);
    }
    kept
}

/// The formula numbers of instructions, of both halves of a pair, of the outline and of the lines.
fn named_formulas(image: &mut Written) -> impl Iterator<Item = &mut u16> {
    let code = image.threads.iter_mut().flatten();
    let halves = code.flat_map(|one| [&mut one.first].into_iter().chain(one.second.as_mut()));
    let sides = image.lines.iter_mut().flat_map(|line| [&mut line.left, &mut line.right]);
    halves.map(|half| &mut half.formula).chain(&mut image.outline).chain(sides)
}

#[cfg(test)]
mod tests;
