//! Judging by the further rules too: a mode of its own, whose answer is no verdict.
//!
//! Frames, bodies, obligations and claims are judged as ever; only more lines are justified.

use super::rules::{further, Rules};
use super::{body, frames, Refusal, Verdict};
use crate::image::Image;

/// The answer by both sets of rules.
#[derive(Clone, Debug, PartialEq, Eq)]
pub struct Judgement {
    /// Whether all obligations are met and all claims shown.
    pub accepted: bool,
    /// The nine numbers that a verdict would have if these rules were the published ones.
    pub fields: Verdict,
    /// The further rules by which lines go.
    pub used: Vec<u8>,
}

/// Judges the bytes of an image whose lines may go by further rules.
pub fn judge(image: &[u8]) -> Judgement {
    match decode(image) {
        Ok(image) => {
            let fields = super::judge(&image);
            Judgement { accepted: fields.code == 0, fields, used: used(&image) }
        }
        Err(refusal) => {
            let fields = Verdict::refused(refusal);
            Judgement { accepted: false, fields, used: Vec::new() }
        }
    }
}

/// Reads an image whose lines may go by further rules.
pub fn decode(image: &[u8]) -> Result<Image, Refusal> {
    body::decode(&frames::split(image)?, Rules::WithFurther)
}

/// The further rules by which lines of the image go, each once.
pub fn used(image: &Image) -> Vec<u8> {
    further::rules().filter(|rule| image.lines.iter().any(|line| line.rule == *rule)).collect()
}
