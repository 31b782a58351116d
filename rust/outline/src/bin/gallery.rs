//! The program `gallery`: prints the tables of `examples/README.md`, or writes them into it.

use outline::command::output::replaced;
use outline::gallery::times::{self, measured};
use outline::gallery::{inferred, page, tables};
use std::path::Path;
use std::process::ExitCode;

const USAGE: &str = "usage: gallery FOLDER           prints the tables about the outlines of FOLDER
       gallery FOLDER --inferred   infers outlines from FOLDER/infer, and prints the table
       gallery FOLDER --times   measures how long search and check take, and prints it
       gallery FOLDER --write   puts all three into FOLDER/README.md";

fn main() -> ExitCode {
    let args: Vec<String> = std::env::args().skip(1).collect();
    let words: Vec<&str> = args.iter().map(String::as_str).collect();
    let done = match &words[..] {
        [folder] => tables(Path::new(folder)).map(|text| print!("{text}")),
        [folder, "--inferred"] => {
            inferred(Path::new(folder), &mut |_, _, _| ()).map(|text| print!("{text}"))
        }
        [folder, "--times"] => measured(Path::new(folder)).map(|text| print!("{text}")),
        [folder, "--write"] => write(Path::new(folder)),
        _ => Err(USAGE.into()),
    };
    match done {
        Ok(()) => ExitCode::SUCCESS,
        Err(text) => {
            eprintln!("{text}");
            ExitCode::FAILURE
        }
    }
}

fn write(folder: &Path) -> Result<(), String> {
    let path = folder.join("README.md");
    let told = |e: std::io::Error| format!("{}: {e}", path.display());
    let text = std::fs::read_to_string(&path).map_err(told)?;
    let text = inferred::page(&page(&text, folder)?, folder, &mut |_, _, _| ())?;
    let text = times::page(&text, folder)?;
    replaced(&path, text.as_bytes())
}
