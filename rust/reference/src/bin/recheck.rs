//! Judges the cases of stored sets again and reports those that differ.
//!
//! Usage: recheck FOLDER [SET...], where without a SET those that `vectors` writes are judged

use reference::stored::{bills, crossings, formulas, handovers, images, replays, service, trims};
use std::path::Path;
use std::process::ExitCode;

type Judge = fn(&[u8]) -> Option<Vec<bool>>;

/// How many cases that differ are named.
const MOST_NAMED: usize = 50;
const FORMULAS: &str = "formula-bytes";
const TRIMS: &str = "trim";
const BILLS: &str = "bills";
const REPLAYS: &str = "replay";
const HANDOVERS: &str = "handover";
const CROSSINGS: &str = "across";
const SERVICE: &str = "service";
const SETS: [&str; 10] =
    [FORMULAS, "formulas", "images", "rules", TRIMS, BILLS, REPLAYS, HANDOVERS, CROSSINGS, SERVICE];

/// A set of formulas; by the front of its name of images trimmed, billed, replayed, handed over or replayed across a
/// handover, or of calls of a service; by any other name of images judged.
fn judge_of(name: &str) -> Judge {
    match name {
        FORMULAS => formulas,
        _ if name.starts_with(TRIMS) => trims::judged,
        _ if name.starts_with(BILLS) => bills::judged,
        _ if name.starts_with(REPLAYS) => replays::judged,
        _ if name.starts_with(HANDOVERS) => handovers::judged,
        _ if name.starts_with(CROSSINGS) => crossings::judged,
        _ if name.starts_with(SERVICE) => service::judged,
        _ => images,
    }
}

/// The results of one set, or why there are none.
fn results(folder: &Path, name: &str, judge: Judge) -> Result<Vec<bool>, String> {
    let path = folder.join(format!("{name}.bin"));
    let bytes = std::fs::read(&path).map_err(|error| format!("{}: {error}", path.display()))?;
    judge(&bytes).ok_or_else(|| format!("{}: cut short", path.display()))
}

fn main() -> ExitCode {
    let mut arguments = std::env::args().skip(1);
    let Some(folder) = arguments.next() else {
        eprintln!("usage: recheck FOLDER [SET...]");
        return ExitCode::from(2);
    };
    let named: Vec<String> = arguments.collect();
    let sets = if named.is_empty() { SETS.map(String::from).to_vec() } else { named };
    let mut same = true;
    for name in &sets {
        match results(Path::new(&folder), name, judge_of(name)) {
            Ok(results) => {
                let wrong = (1..).zip(&results).filter(|(_, agrees)| !**agrees);
                let wrong: Vec<String> = wrong.map(|(number, _)| number.to_string()).collect();
                println!("{name}: {} cases, {} differ", results.len(), wrong.len());
                if !wrong.is_empty() {
                    let named = &wrong[..wrong.len().min(MOST_NAMED)];
                    println!("  cases {}", named.join(" "));
                }
                same &= wrong.is_empty();
            }
            Err(fault) => {
                eprintln!("{fault}");
                return ExitCode::from(2);
            }
        }
    }
    if same {
        ExitCode::SUCCESS
    } else {
        ExitCode::FAILURE
    }
}
