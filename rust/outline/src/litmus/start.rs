//! The start state of a litmus test.

use crate::c::access::Word;
use crate::c::lex::Kind;
use crate::c::parse::Parser;
use crate::c::types::{self, MOST};
use crate::c::{refuse, Read};

/// The words that the start state names, with their values.
pub fn start(parser: &mut Parser) -> Read<Vec<Word>> {
    let mut words: Vec<Word> = Vec::new();
    parser.expect("{")?;
    while !parser.take("}") {
        if parser.take(";") {
            continue;
        }
        if let Some(word) = entry(parser)? {
            if words.iter().any(|other| other.name == word.name) {
                return refuse(word.at, format!("`{}` is given twice", word.name));
            }
            words.push(word);
        }
        if !parser.sees("}") {
            parser.expect(";")?;
        }
    }
    Ok(words)
}

/// `x = 1`, `[x] = 1`, `int x = 1`, or a register, which begins with 0.
fn entry(parser: &mut Parser) -> Read<Option<Word>> {
    if matches!(parser.peek(), Kind::Number(_)) {
        return register(parser).map(|()| None);
    }
    let mut most = MOST;
    if parser.sees_type() {
        let at = parser.here();
        let of = types::of(parser)?;
        let Some(found) = of.most.filter(|_| of.pointers == 0) else {
            return refuse(at, "a word holds a number, and no pointer");
        };
        most = found;
    }
    let bracketed = parser.take("[");
    let at = parser.here();
    let name = parser.name()?;
    if bracketed {
        parser.expect("]")?;
    }
    let start = if parser.take("=") { value(parser)? } else { 0 };
    Ok(Some(Word { name, start, most, at, is_pointer: true }))
}

/// `0:r0 = 0`
fn register(parser: &mut Parser) -> Read<()> {
    parser.next();
    parser.expect(":")?;
    parser.name()?;
    parser.expect("=")?;
    let at = parser.here();
    match value(parser)? {
        0 => Ok(()),
        _ => refuse(at, "registers begin with 0 here"),
    }
}

/// A number that the machine has.
pub fn value(parser: &mut Parser) -> Read<u8> {
    let (at, found) = (parser.here(), parser.peek());
    let small = match found {
        Kind::Number(number) => u8::try_from(*number).ok().filter(|number| *number <= MOST),
        _ => None,
    };
    parser.next();
    match small {
        Some(number) => Ok(number),
        None => refuse(at, format!("a value of 0 to {MOST} is wanted, found {}", found.shown())),
    }
}
