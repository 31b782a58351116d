//! A program as the text of an outline.

use super::program::Whole;
use crate::text::print::Names;
use std::fmt::Write;

/// What stands at a point: its label, and the assertion between the braces.
#[derive(Debug, Clone)]
pub struct Said {
    pub label: Option<String>,
    pub assertion: String,
}

impl Said {
    /// A point whose assertion is to be found.
    pub fn hole() -> Said {
        Said { label: None, assertion: "?".into() }
    }
}

/// The whole outline; `said` tells what stands at each point of each thread, counted from 0.
pub fn outline(whole: &Whole, names: &Names, range: u8, said: &[Vec<Said>]) -> String {
    let mut text = format!("range {range}\n");
    for (word, name) in whole.words.iter().zip(&names.words) {
        let _ = writeln!(text, "word {name} = {}", word.start);
    }
    let registers = whole.registers(names);
    for (thread, said) in said.iter().enumerate() {
        text += &one(whole, names, thread, &registers[thread], said);
    }
    text
}

/// One thread; inside of it its registers go by their own names.
fn one(whole: &Whole, names: &Names, thread: usize, registers: &[String], said: &[Said]) -> String {
    let mut text = format!("\nthread {}\n", names.threads[thread]);
    if !registers.is_empty() {
        let _ = writeln!(text, "  registers {}", registers.join(", "));
    }
    let own = own_names(whole, names, thread, registers, said);
    let code = &whole.functions[thread].code.placed;
    for (point, Said { label, assertion }) in said.iter().enumerate() {
        let label = label.as_ref().map_or(String::new(), |label| format!("{label}: "));
        let _ = writeln!(text, "  {label}{{ {assertion} }}");
        if let Some(placed) = code.get(point) {
            let told = own.instruction(thread as u8 + 1, &placed.instruction);
            let _ = writeln!(text, "    {told}");
        }
    }
    text
}

fn own_names(
    whole: &Whole,
    names: &Names,
    thread: usize,
    registers: &[String],
    said: &[Said],
) -> Names {
    let mut own = names.clone();
    let before: usize = whole.functions[..thread].iter().map(|f| f.code.locals.len()).sum();
    own.registers[before..before + registers.len()].clone_from_slice(registers);
    own.labels = vec![vec![]; whole.functions.len()];
    own.labels[thread] = said.iter().map(|said| said.label.clone()).collect();
    own
}
