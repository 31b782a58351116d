//! The part `certificate`: formulas, lines, obligations and claims written out in full.

use crate::text::lex::{Mistake, Token};
use crate::text::parse_formula::Cursor;
use crate::text::parse_source::{check_size, sort_word};
use crate::text::source::Certificate;
use reference::image::written::Line;

/// Reads formulas, lines, obligations and claims, numbered from 1 without gaps.
pub fn certificate(c: &mut Cursor) -> Result<Certificate, Mistake> {
    let mut all = Certificate::default();
    loop {
        let line = c.line();
        if c.take("formula") {
            numbered(c, all.formulas.len() + 1)?;
            let Some(sort) = sort_word(c) else {
                return c.wanted("`value`, `test`, `interval` or `assertion`");
            };
            let formula = c.of_sort(sort)?;
            check_size(&formula, line)?;
            all.formulas.push(formula);
        } else if c.take("line") {
            numbered(c, all.lines.len() + 1)?;
            let next = one_line(c, all.formulas.len(), all.lines.len())?;
            all.lines.push(next);
        } else if c.take("obligations") {
            all.obligations.extend(line_numbers(c, 0, all.lines.len())?);
        } else if c.take("claims") {
            all.claims.extend(line_numbers(c, 0, all.lines.len())?);
        } else {
            return Ok(all);
        }
    }
}

fn numbered(c: &mut Cursor, want: usize) -> Result<(), Mistake> {
    if *c.peek() != Token::Number(want) {
        return c.wanted(&format!("number {want}"));
    }
    c.at += 1;
    c.expect(":")
}

fn within(c: &mut Cursor, what: &str, least: usize, most: usize) -> Result<usize, Mistake> {
    let line = c.line();
    let n = c.number()?;
    if n < least || n > most {
        return Err(Mistake { line, text: format!("there is no {what} {n} (so far {most})") });
    }
    Ok(n)
}

/// As many numbers of lines as stand here.
fn line_numbers(c: &mut Cursor, least: usize, most: usize) -> Result<Vec<u16>, Mistake> {
    let mut numbers = Vec::new();
    while matches!(c.peek(), Token::Number(_)) {
        numbers.push(within(c, "line", least, most)? as u16);
    }
    Ok(numbers)
}

/// `rule R [at THREAD POINT] LEFT to RIGHT [from N ..]`
fn one_line(c: &mut Cursor, formulas: usize, lines: usize) -> Result<Line, Mistake> {
    c.expect("rule")?;
    let rule = within(c, "rule", 0, 255)? as u8;
    let (mut thread, mut point) = (0, 0);
    if c.take("at") {
        let line = c.line();
        let name = c.name()?;
        thread = c.scope.thread(&name, line)?;
        point = within(c, "point", 0, 255)? as u8;
    }
    let left = within(c, "formula", 1, formulas)? as u16;
    c.expect("to")?;
    let right = within(c, "formula", 1, formulas)? as u16;
    let mut premises = Vec::new();
    if c.take("from") {
        premises = line_numbers(c, 1, lines)?;
    }
    Ok(Line { rule, thread, point, left, right, premises })
}
