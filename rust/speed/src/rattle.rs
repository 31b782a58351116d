//! The proved functions, from the crate `exports`.

use crate::formulas::answer::{Answer, Counts, Fault};
use crate::images::answer;
use crate::rows::input::{Input, Kind};
use hidokpalu::exports::{formula_answer, image_answer, rows_answer, table_answer};
use reference::checker::Refusal;

pub fn formula(body: &[u8], n: Counts) -> Answer {
    match formula_answer(body, [n.threads, n.words, n.registers, n.range]) {
        6 => Err(Fault::Range),
        7 => Err(Fault::Form),
        sort @ 8..=11 => Ok((sort - 8) as u8),
        answer => panic!("{answer} is no answer of the reader"),
    }
}

pub fn image(bytes: &[u8]) -> answer::Answer {
    match image_answer(bytes) {
        0 => Ok(()),
        answer => Err(Refusal { code: (answer / 65_536) as u16, record: (answer % 65_536) as u16 }),
    }
}

pub fn judge(input: &Input) -> bool {
    let (body, places) = (&input.body, &input.places);
    let answer = match input.kind {
        Kind::Tests { range } => rows_answer(body, input.place(0), input.place(1), range),
        Kind::Table => table_answer(body, places),
    };
    answer == 1
}
