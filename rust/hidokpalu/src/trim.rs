//! Trimming an image for the archive.

use crate::calls::trim_image;
use crate::header::{ACCEPTED, TRIM_ROOM};
use std::error::Error;
use std::fmt;

/// The image is not accepted.
#[derive(Clone, Copy, Debug, PartialEq, Eq, Hash)]
pub struct Refused;

/// Why an image is not trimmed into a buffer.
#[derive(Clone, Copy, Debug, PartialEq, Eq, Hash)]
pub enum TrimError {
    /// The image is not accepted.
    Refused,
    /// The buffer is shorter than the trimmed image.
    Room,
}

/// The image trimmed: the same program, outline and claims, with the lines and formulas that they rest on.
pub fn trim(image: &[u8]) -> Result<Vec<u8>, Refused> {
    let mut out = vec![0; image.len()];
    // A trimmed image is no longer than the image, so that there is room.
    let length = trim_into(image, &mut out).map_err(|_| Refused)?;
    out.truncate(length);
    Ok(out)
}

/// Trims an image into the front of a buffer; its length. With an error the buffer stays as it was.
pub fn trim_into(image: &[u8], out: &mut [u8]) -> Result<usize, TrimError> {
    let mut written = 0;
    match trim_image(image, out, &mut written) {
        ACCEPTED => Ok(written),
        TRIM_ROOM => Err(TrimError::Room),
        _ => Err(TrimError::Refused),
    }
}

impl fmt::Display for Refused {
    fn fmt(&self, out: &mut fmt::Formatter<'_>) -> fmt::Result {
        out.write_str("the image is not accepted")
    }
}

impl fmt::Display for TrimError {
    fn fmt(&self, out: &mut fmt::Formatter<'_>) -> fmt::Result {
        match self {
            TrimError::Refused => Refused.fmt(out),
            TrimError::Room => out.write_str("the buffer is shorter than the trimmed image"),
        }
    }
}

impl Error for Refused {}
impl Error for TrimError {}
