//! The proved checker and what stands on it, beside the independent ones.

mod driver;
mod proved;
mod stack;
mod startup;
mod timing;

use driver::Task;
use std::process::ExitCode;

const USAGE: &str = "\
usage: compare compare|trim|bill|replay|handover|service N [SEED] | files|trim-files|bill-files|replay-files PATH... |
               bench|trim-bench [IMAGE...] | replay-bench | images FOLDER | stack [PATH...] |
               startup PROGRAM IMAGE";

fn main() -> ExitCode {
    let arguments: Vec<String> = std::env::args().skip(1).collect();
    let words: Vec<&str> = arguments.iter().map(String::as_str).collect();
    let done = match words[..] {
        ["compare", ref numbers @ ..] => compare(&driver::CHECK, numbers),
        ["trim", ref numbers @ ..] => compare(&driver::TRIM, numbers),
        ["bill", ref numbers @ ..] => compare(&driver::BILL, numbers),
        ["replay", ref numbers @ ..] => compare(&driver::REPLAY, numbers),
        ["handover", ref numbers @ ..] => handovers(numbers),
        ["service", ref numbers @ ..] => sessions(numbers),
        ["files", ref paths @ ..] => Ok(driver::files(&driver::CHECK, paths)),
        ["trim-files", ref paths @ ..] => Ok(driver::files(&driver::TRIM, paths)),
        ["bill-files", ref paths @ ..] => Ok(driver::files(&driver::BILL, paths)),
        ["replay-files", ref paths @ ..] => Ok(driver::files(&driver::REPLAY, paths)),
        ["images", folder] => Ok(timing::write(folder)),
        ["bench", ref names @ ..] => Ok(timing::run(&timing::CHECK, names)),
        ["trim-bench", ref names @ ..] => Ok(timing::run(&timing::TRIM, names)),
        ["replay-bench"] => Ok(timing::replay::run(proved::replay_trace)),
        ["stack", ref paths @ ..] => Ok(stack::run(paths)),
        ["startup", program, image] => Ok(startup::run(program, image)),
        _ => Err(USAGE.into()),
    };
    match done {
        Ok(true) => ExitCode::SUCCESS,
        Ok(false) => ExitCode::FAILURE,
        Err(fault) => {
            eprintln!("{fault}");
            ExitCode::from(2)
        }
    }
}

/// Compares on so many generated images; an error is wrong use.
fn compare(task: &Task, numbers: &[&str]) -> Result<bool, String> {
    count_and_seed(numbers).map(|(images, seed)| driver::run(task, images, seed))
}

/// The same on so many pairs of images.
fn handovers(numbers: &[&str]) -> Result<bool, String> {
    count_and_seed(numbers).map(|(pairs, seed)| driver::handover::run(pairs, seed))
}

/// The same on sessions of several callers with so many calls together.
fn sessions(numbers: &[&str]) -> Result<bool, String> {
    let service = &proved::SERVICE_CALLS;
    count_and_seed(numbers).map(|(calls, seed)| driver::service::run(service, calls, seed))
}

/// How many, and the seed of the first: 1, or the one given.
fn count_and_seed(numbers: &[&str]) -> Result<(u64, u64), String> {
    let numbers: Option<Vec<u64>> = numbers.iter().map(|text| text.parse().ok()).collect();
    match numbers.as_deref() {
        Some(&[count]) => Ok((count, 1)),
        Some(&[count, seed]) => Ok((count, seed)),
        _ => Err(USAGE.into()),
    }
}
