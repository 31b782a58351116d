//! A formula record: 1 to 255 bytes in prefix form.

use super::{demand, Read, FORM, LENGTH, RANGE};
use crate::formula::nesting::BYTES;
use crate::formula::parse::{parse, Counts, Fault};
use crate::formula::Formula;

pub fn read(body: &[u8], counts: Counts) -> Read<Formula> {
    demand((1..=BYTES).contains(&body.len()), LENGTH)?;
    parse(body, counts).map_err(|fault| match fault {
        Fault::Range => RANGE,
        Fault::Form => FORM,
    })
}
