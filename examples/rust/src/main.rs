//! Judges the image in a file with the proved checker and prints its verdict.
//!
//!     (cd crates/hidokpalu && rt lib)
//!     cargo run --release --offline -p check FILE
//!
//! The status is 0 for an accepted image, 1 for any other, 2 if there is no image to judge.
#![forbid(unsafe_code)]

use hidokpalu::{check, Verdict};
use std::io::{Error, Result, Write};
use std::process::ExitCode;

fn main() -> ExitCode {
    match judge() {
        Ok(verdict) if verdict.is_accepted() => ExitCode::SUCCESS,
        Ok(_) => ExitCode::from(1),
        Err(error) => {
            eprintln!("{error}");
            ExitCode::from(2)
        }
    }
}

/// Prints the verdict on the image in the file that is named.
fn judge() -> Result<Verdict> {
    let path = std::env::args_os().nth(1).ok_or_else(|| Error::other("usage: check FILE"))?;
    let verdict = check(&std::fs::read(path)?);
    let mut out = std::io::stdout();
    match verdict {
        Verdict::Accepted { obligations } => writeln!(out, "accepted: {obligations} obligations")?,
        Verdict::Malformed { fault, record } => writeln!(out, "record {record}: {fault:?}")?,
        Verdict::Unmet { reason, obligation, line, met } => writeln!(
            out,
            "{met} obligations are met, then line {line}: {reason:?}, {obligation:?}"
        )?,
        Verdict::ClaimFails { record, line, .. } => {
            writeln!(out, "the claim in record {record} is not borne out by line {line}")?
        }
    }
    Ok(verdict)
}
