//! The proved readers, rows and tables beside equal Rust functions: first the same answers on damaged or
//! random input, then time.

mod formulas;
mod images;
mod measure;
mod random;
mod rattle;
mod rows;

use random::Random;
use std::process::ExitCode;

fn main() -> ExitCode {
    let mut random = Random(88_172_645_463_325_252);
    // All are run, so that a difference in one does not hide the others.
    let formulas = formulas::run(&mut random);
    let images = images::run(&mut random);
    let rows = rows::run(&mut random);
    if formulas && images && rows {
        ExitCode::SUCCESS
    } else {
        ExitCode::FAILURE
    }
}
