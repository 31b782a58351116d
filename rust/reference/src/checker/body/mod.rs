//! Record bodies, first to last: codes 5 to 9, and 23.
//!
//! Within a record the lowest code counts. Each reader below therefore judges
//! length (5), then every number (6), then sorts (8), then owners (9), then
//! operands (23); a formula record, after its length, has the first fault from
//! the left (6 or 7).

mod claim;
mod formula;
mod header;
mod line;
mod obligations;
mod outline;
mod thread;

use super::frames::{self, Record};
use super::rules::Rules;
use super::verdict::Refusal;
use crate::formula::Formula;
use crate::image::{Header, Image, Program};

/// Codes of faults in a body.
const LENGTH: u16 = 5;
const RANGE: u16 = 6;
const FORM: u16 = 7;
const SORT: u16 = 8;
const OWNER: u16 = 9;
const OPERAND: u16 = 23;

/// What a reader finds, or the code of its first fault.
type Read<T> = Result<T, u16>;

/// Fails with the code unless the condition holds.
fn demand(condition: bool, code: u16) -> Read<()> {
    if condition {
        Ok(())
    } else {
        Err(code)
    }
}

/// Reads all bodies of records whose frames are in order; lines go by these rules.
pub fn decode(records: &[Record], rules: Rules) -> Result<Image, Refusal> {
    let numbered: Vec<(usize, Record)> = (1..).zip(records.iter().copied()).collect();
    let of_kind =
        |kind: u16| numbered.iter().copied().filter(move |(_, record)| record.kind == kind);

    let threads_written = of_kind(frames::THREAD).count();
    let header = sole(of_kind(frames::HEADER), |body| header::read(body, threads_written))?;
    let formulas = each(of_kind(frames::FORMULA), |_, body| formula::read(body, header.counts))?;
    let threads = each(of_kind(frames::THREAD), |number, body| {
        let context = Context { header: &header, formulas: &formulas };
        thread::read(body, number, &context)
    })?;
    let outline = sole(of_kind(frames::OUTLINE), |body| outline::read(body, &threads, &formulas))?;
    let lines = each(of_kind(frames::LINE), |number, body| {
        line::read(body, number, rules, &threads, &formulas)
    })?;
    let obligations =
        sole(of_kind(frames::OBLIGATIONS), |body| obligations::read(body, &threads, lines.len()))?;
    let claims = each(of_kind(frames::CLAIM), |_, body| claim::read(body, &threads, lines.len()))?;
    let program = Program { header, threads, outline };
    Ok(Image { program, rules, lines, obligations, claims, records: records.len() })
}

/// What the records before a thread record have given.
struct Context<'a> {
    header: &'a Header,
    formulas: &'a [Formula],
}

/// Reads every record of one kind; the reader gets its number within the kind.
fn each<'a, T>(
    records: impl Iterator<Item = (usize, Record<'a>)>,
    read: impl Fn(usize, &[u8]) -> Read<T>,
) -> Result<Vec<T>, Refusal> {
    (1..)
        .zip(records)
        .map(|(number, (place, record))| {
            read(number, record.body).map_err(|code| Refusal::at(code, place))
        })
        .collect()
}

/// Reads the record of a kind that occurs once.
fn sole<'a, T>(
    records: impl Iterator<Item = (usize, Record<'a>)>,
    read: impl Fn(&[u8]) -> Read<T>,
) -> Result<T, Refusal> {
    let mut read_records = each(records, |_, body| read(body))?;
    Ok(read_records.pop().expect("the frames hold each kind"))
}

/// The formula with this number, counted from 1.
fn formula_numbered(formulas: &[Formula], number: u16) -> Read<&Formula> {
    usize::from(number).checked_sub(1).and_then(|index| formulas.get(index)).ok_or(RANGE)
}
