//! Which lines of a certificate are justified.

mod actions;
pub mod further;
mod implications;
mod inclusions;
mod loads;
mod pairs;
mod parts;
pub mod rows;
mod stores;
mod structure;
mod swaps;
pub mod table;
pub mod triples;

use crate::image::{Image, Line, Program, Statement};
pub use actions::{Load, Write};
pub use loads::before_load;
pub use structure::{before_notes, keeps};
pub use swaps::covered_till_last;

/// The most premises of a line.
pub const MOST_PREMISES: usize = 4;
/// The rule whose lines speak of whole pairs; all others speak of a pair's first half.
pub const OF_PAIR: u8 = 50;

/// What kind of statement a rule concludes.
#[derive(Clone, Copy, Debug, PartialEq, Eq)]
pub enum Form {
    Triple,
    Implication,
    Inclusion,
}

impl Form {
    /// The form of a rule's lines; none for a rule that is not listed.
    pub fn of_rule(rule: u8) -> Option<Form> {
        match rule {
            1..=16 | 47..=OF_PAIR => Some(Form::Triple),
            20..=27 => Some(Form::Implication),
            30..=46 => Some(Form::Inclusion),
            _ => None,
        }
    }
}

/// The rules that the lines of an image go by.
#[derive(Clone, Copy, Debug, Default, PartialEq, Eq)]
pub enum Rules {
    /// The published ones, by which every verdict goes.
    #[default]
    Published,
    /// These and the further ones. What is accepted by them is no verdict.
    WithFurther,
}

impl Rules {
    /// The form of a rule's lines; none for a rule that is not among these.
    pub fn form(self, rule: u8) -> Option<Form> {
        match self {
            Rules::Published => Form::of_rule(rule),
            Rules::WithFurther => Form::of_rule(rule).or(further::form(rule)),
        }
    }
}

/// Every published rule.
pub fn rules() -> impl Iterator<Item = u8> {
    (0..=u8::MAX).filter(|&rule| Form::of_rule(rule).is_some())
}

/// Whether a line has the shape of its rule: `None` and `Some(false)` both say no.
/// `None` arises where a part is missing before anything can be compared.
type Fit = Option<bool>;

/// For each line whether it is justified.
pub fn justified_lines(image: &Image) -> Vec<bool> {
    let mut justified: Vec<bool> = Vec::new();
    for line in &image.lines {
        let rests_well = line.premises.iter().all(|&number| justified[usize::from(number) - 1]);
        justified.push(rests_well && fits(image, line));
    }
    justified
}

/// Whether the line follows from what its premises say, by its rule. What is said of a whole pair serves no line.
pub fn fits(image: &Image, line: &Line) -> bool {
    let named = |&number: &u16| &image.lines[usize::from(number) - 1];
    let premises: Vec<&Line> = line.premises.iter().map(named).collect();
    let said: Vec<&Statement> = premises.iter().map(|premise| &premise.statement).collect();
    premises.iter().all(|premise| premise.rule != OF_PAIR)
        && follows_by(image.rules, &image.program, line.rule, &line.statement, &said)
}

/// Whether the statement follows by the rule, if it is one of these, as `follows` says it of a published one.
pub fn follows_by(
    rules: Rules,
    program: &Program,
    rule: u8,
    statement: &Statement,
    premises: &[&Statement],
) -> bool {
    match rules == Rules::WithFurther && further::form(rule).is_some() {
        true => further::fits(program, rule, statement, premises) == Some(true),
        false => follows(program, rule, statement, premises),
    }
}

/// Whether the statement follows by the published rule, in this program, from premises of which none is by rule 50.
pub fn follows(
    program: &Program,
    rule: u8,
    statement: &Statement,
    premises: &[&Statement],
) -> bool {
    let fit = match statement {
        Statement::Triple { .. } => {
            let triple = triples::Triple::of(program, statement).expect("a triple");
            triples::fits(rule, &triple, premises)
        }
        Statement::Implication { left, right } => {
            implications::fits(rule, left, right, premises, &program.header)
        }
        Statement::Inclusion { left, right } => {
            inclusions::fits(rule, left, right, premises, program.header.counts.range)
        }
    };
    fit == Some(true)
}

#[cfg(test)]
mod tests;
