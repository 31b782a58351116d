//! Writes the inputs of the program `verdict` to a folder, each as NAME.image with its line in NAME.line.
//!
//! Usage: program_inputs FOLDER

use sets::examples::program_inputs::{all, Input};
use std::io::{Error, Result};
use std::path::Path;

fn main() -> Result<()> {
    let usage = || Error::other("usage: program_inputs FOLDER");
    let folder = std::env::args_os().nth(1).ok_or_else(usage)?;
    for Input { name, bytes, line } in all() {
        let file = Path::new(&folder).join(name.replace(", ", "-").replace(' ', "-"));
        std::fs::write(file.with_extension("image"), bytes)?;
        std::fs::write(file.with_extension("line"), line + "\n")?;
    }
    Ok(())
}
