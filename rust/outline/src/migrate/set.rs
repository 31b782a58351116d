//! A stored set rewritten: images with their verdicts.

use super::{Refusal, Step};
use reference::checker::check;
use reference::stored::{stored_images, StoredImage};

/// The nine fields of a verdict.
pub type Fields = [u16; 9];

/// A set in the next layout.
#[derive(Debug, Default, PartialEq, Eq)]
pub struct Rewritten {
    pub bytes: Vec<u8>,
    /// How many images are in the next layout now.
    pub rewritten: usize,
    /// How many are kept as they are, with their verdict: frames at fault have no layout, and lengths at fault no
    /// obligations to be moved.
    pub kept: usize,
    /// The cases whose verdict was made afresh, by number from 1, with the verdict before and after.
    pub afresh: Vec<(usize, Fields, Fields)>,
    /// The cases that are left out, by number from 1, and why.
    pub left_out: Vec<(usize, Refusal)>,
}

/// Rewrites each image of a set. None if the set is cut short.
pub fn rewrite(set: &[u8], step: Step) -> Option<Rewritten> {
    let mut result = Rewritten::default();
    for (number, case) in (1..).zip(stored_images(set)?) {
        match step.rewrite(case.image) {
            Ok(image) => {
                result.rewritten += 1;
                let fields = result.verdict(number, &case, &image, step);
                result.put(&image, &fields);
            }
            Err(Refusal::Frames | Refusal::Lengths) => {
                result.kept += 1;
                result.put(case.image, &case.fields);
            }
            Err(refusal) => result.left_out.push((number, refusal)),
        }
    }
    Some(result)
}

impl Rewritten {
    /// The stored verdict; but among obligations of class 4 that fail, another may come first once they are moved.
    fn verdict(&mut self, number: usize, case: &StoredImage, image: &[u8], step: Step) -> Fields {
        const CLASS: usize = 2;
        if step != Step::Actors || case.fields[CLASS] != 4 {
            return case.fields;
        }
        let fields = check(image).fields();
        self.afresh.push((number, case.fields, fields));
        fields
    }

    fn put(&mut self, image: &[u8], fields: &Fields) {
        self.bytes.extend((image.len() as u32).to_le_bytes());
        self.bytes.extend(image);
        self.bytes.extend(fields.iter().flat_map(|field| field.to_le_bytes()));
    }
}

/// A set whose images have lengths of 16 bits, with lengths of 32 bits. None if it is cut short.
pub fn with_long_lengths(mut set: &[u8]) -> Option<Vec<u8>> {
    const VERDICT: usize = 18;
    let mut wide = Vec::new();
    while !set.is_empty() {
        let (length, rest) = set.split_first_chunk()?;
        let length = u16::from_le_bytes(*length);
        let (case, rest) = rest.split_at_checked(usize::from(length) + VERDICT)?;
        wide.extend(u32::from(length).to_le_bytes());
        wide.extend(case);
        set = rest;
    }
    Some(wide)
}
