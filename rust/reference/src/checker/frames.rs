//! Record frames: the whole image is cut into records before any body is read.
//! Codes 2 (whole image), 3 (length) and 4 (kind).

use super::limits;
use super::verdict::Refusal;

/// Record kinds, in the order in which they stand in an image. Kind 7 is the verdict's.
pub const HEADER: u16 = 1;
pub const FORMULA: u16 = 2;
pub const THREAD: u16 = 3;
pub const OUTLINE: u16 = 4;
pub const LINE: u16 = 5;
pub const OBLIGATIONS: u16 = 6;
pub const CLAIM: u16 = 8;

/// One record without its length field.
#[derive(Clone, Copy, Debug)]
pub struct Record<'a> {
    pub kind: u16,
    pub body: &'a [u8],
}

/// Cuts the image into records, or names the first frame at fault.
pub fn split(image: &[u8]) -> Result<Vec<Record<'_>>, Refusal> {
    split_within(image, limits::IMAGE_BYTES)
}

/// The same, of an image that has at most so many bytes.
pub fn split_within(image: &[u8], most: usize) -> Result<Vec<Record<'_>>, Refusal> {
    if image.is_empty() || image.len() > most {
        return Err(Refusal::at(2, 0));
    }
    let mut records: Vec<Record> = Vec::new();
    let mut order = Order::default();
    let mut rest = image;
    while !rest.is_empty() {
        let number = records.len() + 1;
        let (record, behind) = first_record(rest).ok_or(Refusal::at(3, number))?;
        if !order.take(record.kind) {
            return Err(Refusal::at(4, number));
        }
        records.push(record);
        rest = behind;
    }
    if !matches!(order.kind, OBLIGATIONS | CLAIM) {
        return Err(Refusal::at(4, records.len() + 1));
    }
    Ok(records)
}

/// The record at the front and the bytes behind it; none if its length is at fault.
fn first_record(bytes: &[u8]) -> Option<(Record<'_>, &[u8])> {
    let length = number_at(bytes, 0)? as usize;
    let content = bytes.get(2..2 + length)?;
    let kind = number_at(content, 0)?;
    Some((Record { kind, body: &content[2..] }, &bytes[2 + length..]))
}

/// The 16-bit little-endian number at `place`, if both its bytes are there.
pub fn number_at(bytes: &[u8], place: usize) -> Option<u16> {
    let pair = bytes.get(place..place + 2)?;
    Some(u16::from_le_bytes([pair[0], pair[1]]))
}

/// How many records of a kind an image has at most; 0 for an unknown kind.
pub fn most(kind: u16) -> usize {
    match kind {
        HEADER | OUTLINE | OBLIGATIONS => 1,
        FORMULA => limits::FORMULAS,
        THREAD => limits::THREADS.into(),
        LINE => limits::LINES,
        CLAIM => limits::CLAIMS,
        _ => 0,
    }
}

/// The kind that may stand behind all records of a kind.
fn next(kind: u16) -> u16 {
    match kind {
        OBLIGATIONS => CLAIM,
        kind => kind + 1,
    }
}

/// The kind that was read last and how many records of it in a row.
#[derive(Default)]
struct Order {
    kind: u16,
    present: usize,
}

impl Order {
    /// Takes one more record, unless its kind may not stand here.
    ///
    /// Each kind but the last must occur, so the next record has either the kind of
    /// the last one or the kind after it.
    fn take(&mut self, kind: u16) -> bool {
        let present = if kind == self.kind { self.present } else { 0 };
        let fits = (kind == self.kind || kind == next(self.kind)) && present < most(kind);
        if fits {
            *self = Order { kind, present: present + 1 };
        }
        fits
    }
}
