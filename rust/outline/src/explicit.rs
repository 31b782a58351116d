//! A source with a certificate written out: numbers are taken as they stand.

use crate::build::{Built, Goal, Open};
use crate::text::lex::{Mistake, Place};
use crate::text::source::{Certificate, Source};
use reference::formula::encode::Encode;
use reference::formula::Formula;
use reference::image::written::{Instruction, Written};
use reference::image::Claim;

/// Builds without any search.
pub fn build(source: &Source, certificate: &Certificate) -> Result<Built, Mistake> {
    let mut formulas = certificate.formulas.clone();
    let threads = number_code(source, &mut formulas)?;
    let mut outline = Vec::new();
    for p in source.points.iter().flatten() {
        let assertion = Formula::Assertion(p.assertion.clone());
        outline.push(number(&mut formulas, assertion, p.number, p.line)?);
    }
    let open = open_ones(source, certificate)?;
    let claims = source.meetings().into_iter().zip(&certificate.claims);
    let image = Written {
        header: source.header.clone(),
        formulas: formulas.iter().map(Formula::encode).collect(),
        threads,
        outline,
        lines: certificate.lines.clone(),
        obligations: certificate.obligations.clone(),
        claims: claims.map(|(meeting, line)| Claim { meeting, line: *line }).collect(),
    };
    Ok(Built { image, open, failed: Vec::new(), untried: 0, tries: 0, most_tries: 0 })
}

/// The instructions with their formula numbers, by thread.
fn number_code(
    source: &Source,
    formulas: &mut Vec<Formula>,
) -> Result<Vec<Vec<Instruction>>, Mistake> {
    let mut all = Vec::new();
    for (t, code) in source.threads.iter().enumerate() {
        let mut fields = Vec::new();
        for (i, instruction) in code.iter().enumerate() {
            let line = source.points[t][i].line;
            let mut numbers = Vec::new();
            for (operand, wanted) in
                instruction.operands().into_iter().zip(&source.code_numbers[t][i])
            {
                numbers.push(number(formulas, operand, *wanted, line)?);
            }
            fields.push(instruction.fields(&numbers));
        }
        all.push(fields);
    }
    Ok(all)
}

/// The obligations and claims for which the certificate names no line.
fn open_ones(source: &Source, certificate: &Certificate) -> Result<Vec<Open>, Mistake> {
    let program = source.program();
    let all = Goal::all(source);
    let (claims, duties) = (source.claims.len(), all.len() - source.claims.len());
    as_many(source, "obligations", certificate.obligations.len(), duties)?;
    as_many(source, "claims", certificate.claims.len(), claims)?;
    let lines = certificate.obligations.iter().chain(&certificate.claims);
    let open = all.into_iter().zip(lines).filter(|(_, line)| **line == 0);
    let open = open.map(|(goal, _)| Open {
        goal,
        wanted: goal.wanted(&program),
        tried: vec!["tried        nothing: the certificate names no line".to_string()],
        given_up: None,
    });
    Ok(open.collect())
}

fn as_many(source: &Source, what: &str, listed: usize, wanted: usize) -> Result<(), Mistake> {
    if listed == wanted {
        return Ok(());
    }
    let text = format!("{listed} {what} are listed, the outline has {wanted}");
    Err(Mistake { line: source.points[0][0].line, text })
}

/// The number asked for by `@`, checked; else the first equal formula; else a new one.
fn number(
    formulas: &mut Vec<Formula>,
    formula: Formula,
    wanted: Option<usize>,
    line: Place,
) -> Result<u16, Mistake> {
    match wanted {
        Some(n) if n > 0 && formulas.get(n - 1) == Some(&formula) => Ok(n as u16),
        Some(n) => Err(Mistake {
            line,
            text: format!("formula {n} of the certificate says something else"),
        }),
        None => {
            let known = formulas.iter().position(|other| *other == formula);
            Ok(known.unwrap_or_else(|| {
                formulas.push(formula);
                formulas.len() - 1
            }) as u16
                + 1)
        }
    }
}
