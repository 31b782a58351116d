//! Images of an earlier layout, rewritten in the next one.
//!
//! A step changes the records of an image. It reads what it changes and refuses what it cannot read;
//! all else stays, faults among it, so that the image keeps its verdict; or, where another obligation
//! comes first, is accepted exactly if it was.

mod actors;
mod marks;
mod range;
pub mod set;

use reference::checker::{frames, limits};
use reference::image::written::{image_bytes, Record};

/// A change of the layout, by the name that the command takes. They came in this order.
#[derive(Clone, Copy, Debug, PartialEq, Eq)]
pub enum Step {
    /// A byte behind the register count of the header says how many values there are.
    Range,
    /// A byte per register behind the owners says whether the register starts at 0.
    Marks,
    /// The obligations of class 4 go by the acting side, no longer by the asserting one.
    Actors,
}

/// Why an image is refused.
#[derive(Clone, Copy, Debug, PartialEq, Eq)]
pub enum Refusal {
    /// The image is empty or too long, or a record's length or kind is at fault; no body was looked at.
    Frames,
    /// The header does not have the length that its counts ask for in the earlier layout.
    Header,
    /// A thread record, or the obligations record, does not have the length that the points ask for.
    Lengths,
    /// The image would be longer than any may be.
    Length,
}

impl Step {
    pub const ALL: [(&'static str, Step); 3] =
        [("range", Step::Range), ("marks", Step::Marks), ("actors", Step::Actors)];

    /// The image in the layout after this step.
    pub fn rewrite(self, image: &[u8]) -> Result<Vec<u8>, Refusal> {
        let records = frames::split(image).map_err(|_| Refusal::Frames)?;
        let mut records: Vec<Record> =
            records.iter().map(|record| Record::new(record.kind, record.body)).collect();
        match self {
            Step::Range => range::add(&mut records[0].body)?,
            Step::Marks => marks::add(&mut records[0].body)?,
            Step::Actors => actors::order(&mut records)?,
        }
        let longer = image_bytes(&records);
        if longer.len() > limits::IMAGE_BYTES {
            return Err(Refusal::Length);
        }
        Ok(longer)
    }
}

impl std::fmt::Display for Refusal {
    fn fmt(&self, out: &mut std::fmt::Formatter<'_>) -> std::fmt::Result {
        out.write_str(match self {
            Refusal::Frames => "its length, or a record's length or kind, is at fault",
            Refusal::Header => "its header is not of the earlier layout",
            Refusal::Lengths => "a thread, or the obligations, do not have their length",
            Refusal::Length => "it would be longer than an image may be",
        })
    }
}
