//! `never THREAD POINT and THREAD POINT`: two threads are never at two points together.

use crate::text::lex::{Mistake, Place, Token};
use crate::text::parse_formula::Cursor;
use crate::text::source::{Claim, Labels};
use reference::image::Meeting;

/// A claim in reading: which points it names is known when all threads are read.
pub struct Unplaced {
    place: Place,
    sides: [Side; 2],
}

/// A thread, and its point as it is written.
struct Side {
    thread: u8,
    point: Token,
    place: Place,
}

/// Reads what stands behind `never`, whose place is given.
pub fn claim(c: &mut Cursor, place: Place) -> Result<Unplaced, Mistake> {
    let first = side(c)?;
    c.expect("and")?;
    let (again, name) = (c.line(), c.peek().shown());
    let second = side(c)?;
    if first.thread == second.thread {
        let text = format!("a claim is about two threads, and {name} is named twice");
        return Err(Mistake { line: again, text });
    }
    Ok(Unplaced { place, sides: [first, second] })
}

fn side(c: &mut Cursor) -> Result<Side, Mistake> {
    let line = c.line();
    let name = c.name()?;
    let thread = c.scope.thread(&name, line)?;
    let (point, place) = (c.peek().clone(), c.line());
    if !matches!(point, Token::Number(_) | Token::Name(_)) {
        return c.wanted("a point, its number or its label,");
    }
    c.at += 1;
    Ok(Side { thread, point, place })
}

impl Unplaced {
    /// The claim with its points found among the labels of all threads.
    pub fn placed(&self, labels: &[Labels]) -> Result<Claim, Mistake> {
        let [first, second] = &self.sides;
        let point =
            |side: &Side| point_of(&side.point, &labels[usize::from(side.thread) - 1], side.place);
        let meeting = Meeting {
            thread: first.thread,
            point: point(first)?,
            other_thread: second.thread,
            other_point: point(second)?,
        };
        Ok(Claim { meeting, line: self.place })
    }
}

/// The point of a thread that a number or a label names.
pub fn point_of(named: &Token, labels: &Labels, line: Place) -> Result<u8, Mistake> {
    let found = match named {
        Token::Number(n) => Some(*n),
        Token::Name(n) => labels.iter().position(|label| label.as_ref() == Some(n)),
        _ => None,
    };
    match found.filter(|point| *point < labels.len()) {
        Some(point) => Ok(point as u8),
        None => {
            Err(Mistake { line, text: format!("{} is no point of this thread", named.shown()) })
        }
    }
}
