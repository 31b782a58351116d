//! The verdict: nine numbers, and the record of 22 bytes that carries them.

/// Length of a verdict record with its own length field.
pub const RECORD_BYTES: usize = 22;
/// The result for an output that cannot hold a verdict record.
pub const OUTPUT_TOO_SHORT: u16 = 1;
const RECORD_KIND: u16 = 7;

/// A refusal before any obligation is looked at.
#[derive(Clone, Copy, Debug, PartialEq, Eq)]
pub struct Refusal {
    pub code: u16,
    pub record: u16,
}

impl Refusal {
    /// The fault `code` in the record with this number, counted from 1.
    pub fn at(code: u16, record: usize) -> Refusal {
        let record = u16::try_from(record).expect("an image has fewer than 65,536 records");
        Refusal { code, record }
    }
}

/// The answer for one image. Fields that do not apply are 0.
#[derive(Clone, Copy, Debug, Default, PartialEq, Eq, Hash)]
pub struct Verdict {
    pub code: u16,
    pub record: u16,
    pub class: u16,
    pub thread: u16,
    pub point: u16,
    pub other_thread: u16,
    pub other_point: u16,
    pub line: u16,
    pub count: u16,
}

impl Verdict {
    /// The verdict on an image whose bytes are at fault.
    pub fn refused(refusal: Refusal) -> Verdict {
        Verdict { code: refusal.code, record: refusal.record, ..Verdict::default() }
    }

    /// The nine fields in the order of the record.
    pub fn fields(&self) -> [u16; 9] {
        [
            self.code,
            self.record,
            self.class,
            self.thread,
            self.point,
            self.other_thread,
            self.other_point,
            self.line,
            self.count,
        ]
    }

    /// The verdict that a record carries.
    pub fn of_record(record: &[u8; RECORD_BYTES]) -> Verdict {
        let field = |n: usize| u16::from_le_bytes([record[4 + 2 * n], record[5 + 2 * n]]);
        Verdict {
            code: field(0),
            record: field(1),
            class: field(2),
            thread: field(3),
            point: field(4),
            other_thread: field(5),
            other_point: field(6),
            line: field(7),
            count: field(8),
        }
    }

    /// The verdict as a record: length, kind, nine fields.
    pub fn record(&self) -> [u8; RECORD_BYTES] {
        let length = (RECORD_BYTES - 2) as u16;
        let mut bytes = [0; RECORD_BYTES];
        let numbers = [length, RECORD_KIND].into_iter().chain(self.fields());
        for (place, number) in bytes.chunks_exact_mut(2).zip(numbers) {
            place.copy_from_slice(&number.to_le_bytes());
        }
        bytes
    }
}

impl std::fmt::Display for Verdict {
    fn fmt(&self, out: &mut std::fmt::Formatter<'_>) -> std::fmt::Result {
        let fields: Vec<String> = self.fields().iter().map(u16::to_string).collect();
        out.write_str(&fields.join(" "))
    }
}
