//! C files: preprocessed by the C compiler, read by the grammar of the subset, and written as an outline with holes.

pub mod file;
pub mod points;
pub mod preprocess;

use crate::c::lower::lower;
use crate::c::program::{Function, Whole};
use crate::c::values::{fitting, Fits};
use crate::c::{assigned, order, refuse, Read};
use file::File;
use reference::explore::Bounds;

/// The program of a C file.
pub struct Imported {
    pub whole: Whole,
    pub fits: Fits,
    /// What stands behind `//@` outside of functions.
    pub notes: Vec<String>,
    /// Functions that name a word of the program and are no threads of it.
    pub others: Vec<String>,
}

/// The threads that are named, or else all functions but `main` that name an atomic word.
pub fn program(file: &File, threads: &[String], bounds: Bounds) -> Read<Imported> {
    let chosen = file.chosen(threads)?;
    let words: Vec<_> = file
        .words
        .iter()
        .filter(|word| chosen.iter().any(|f| f.names(&word.name)))
        .cloned()
        .collect();
    if let Some(word) = words.iter().find(|word| file.is_extern(&word.name)) {
        return refuse(
            word.at,
            format!("`{}` begins elsewhere, so its start value is not known here", word.name),
        );
    }
    let mut functions: Vec<Function> = Vec::new();
    for function in &chosen {
        let before = functions.iter().map(|f| f.code.locals.len()).sum();
        let read = function.read()?;
        let code = lower(&words, before, &read)?;
        order::check(&code)?;
        assigned::check(&code, before)?;
        functions.push(Function { name: read.name, code, at: read.at });
    }
    let is_other = |name: &str| !chosen.iter().any(|function| function.name == name);
    let others = file
        .functions
        .iter()
        .filter(|f| is_other(&f.name) && words.iter().any(|w| f.names(&w.name)));
    let others = others.map(|function| function.name.clone()).collect();
    let whole = Whole { words, functions };
    whole.check_room()?;
    let fits = fitting(&whole, bounds, 0)?;
    Ok(Imported { whole, fits, notes: file.notes.clone(), others })
}
