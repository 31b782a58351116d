//! Random changes of texts and of bytes.

use super::Dice;
use crate::text::lex::KEYWORDS;

/// Pieces that a text gets: what the readers look for, and what they do not expect.
const PIECES: &[&str] = &[
    "(",
    ")",
    "{",
    "}",
    "[",
    "]",
    ";",
    "|",
    "&",
    "=",
    "!=",
    "<",
    "<=",
    ":=",
    ":=rel",
    "<-",
    "<-acq",
    "=>",
    "+",
    ":",
    ",",
    "@",
    "@1",
    "@0",
    "#",
    "\n",
    "\r\n",
    "\r",
    "\t",
    " ",
    "0",
    "1",
    "7",
    "8",
    "15",
    "16",
    "17",
    "255",
    "256",
    "65535",
    "65536",
    "272",
    "18446744073709551615",
    "99999999999999999999999",
    "x",
    "y",
    "r",
    "t",
    "t1",
    "w1",
    "r1",
    "not not not",
    "((((",
    "))))",
    "- 1",
    "1. t: x := 1   writes 1 behind write 1",
    "caller 1 may check",
    "1 check a.image",
    "start 10",
    "\u{feff}",
    "\u{0}",
    "é",
    "→",
    "formula 1: assertion true",
    "line 1: rule 20 1 to 1",
    "obligations 1",
    "claims 1",
    "never t 0 and u 0",
    "by 16 through",
];

/// One change most of the time, since of many one is sure to be refused; up to four.
fn changes(dice: &mut Dice) -> usize {
    1 + dice.below(5).saturating_sub(3) * (1 + dice.below(3))
}

/// A text with some changes.
pub fn changed_text(dice: &mut Dice, texts: &[String]) -> String {
    let mut text = dice.pick(texts).clone();
    for _ in 0..changes(dice) {
        text = change_text(dice, &text, texts);
    }
    text
}

fn change_text(dice: &mut Dice, text: &str, texts: &[String]) -> String {
    let words = spans(text);
    if words.is_empty() {
        return piece(dice);
    }
    let (from, to) = *dice.pick(&words);
    let (front, word, back) = (&text[..from], &text[from..to], &text[to..]);
    match dice.below(9) {
        0 => format!("{front}{back}"),
        1 => format!("{front}{word} {word}{back}"),
        2 | 3 => format!("{front}{}{back}", piece(dice)),
        4 => format!("{front}{word} {} {back}", piece(dice)),
        5 => {
            let (again, until) = *dice.pick(&words);
            format!("{front}{}{back}", &text[again..until])
        }
        6 => {
            let other = dice.pick(texts);
            let spans = spans(other);
            let cut = if spans.is_empty() { 0 } else { dice.pick(&spans).0 };
            format!("{front}{}", &other[cut..])
        }
        7 => {
            let times = 1 << dice.below(12);
            format!("{front}{}{word}{back}", piece(dice).repeat(times))
        }
        _ => {
            let end = (to + dice.below(40)).min(text.len());
            let end =
                (end..=text.len()).find(|at| text.is_char_boundary(*at)).unwrap_or(text.len());
            format!("{front}{}", &text[end..])
        }
    }
}

fn piece(dice: &mut Dice) -> String {
    match dice.below(3) {
        0 => dice.pick(&KEYWORDS).to_string(),
        1 => dice.below(300).to_string(),
        _ => dice.pick(PIECES).to_string(),
    }
}

/// Where the words and marks of a text begin and end.
fn spans(text: &str) -> Vec<(usize, usize)> {
    let mut spans = Vec::new();
    let mut start = None;
    for (at, c) in text.char_indices() {
        let is_word = c.is_alphanumeric() || c == '_';
        match start {
            Some(from) if !is_word => {
                spans.push((from, at));
                start = None;
            }
            None if is_word => start = Some(at),
            _ => {}
        }
        if !is_word && !c.is_whitespace() {
            spans.push((at, at + c.len_utf8()));
        }
    }
    spans.extend(start.map(|from| (from, text.len())));
    spans
}

/// Bytes with some changes.
pub fn changed_bytes(dice: &mut Dice, bytes: &[u8]) -> Vec<u8> {
    let mut bytes = bytes.to_vec();
    for _ in 0..changes(dice) {
        change_bytes(dice, &mut bytes);
    }
    bytes
}

fn change_bytes(dice: &mut Dice, bytes: &mut Vec<u8>) {
    if bytes.is_empty() {
        bytes.push(dice.below(256) as u8);
        return;
    }
    let at = dice.below(bytes.len());
    let some = [0, 1, 2, 7, 8, 16, 27, 28, 127, 128, 255];
    match dice.below(8) {
        0 => bytes[at] = dice.below(256) as u8,
        1 => bytes[at] = *dice.pick(&some),
        2 => bytes[at] = bytes[at].wrapping_add(1),
        3 => bytes[at] ^= 1 << dice.below(8),
        4 => bytes.insert(at, *dice.pick(&some)),
        5 => {
            bytes.remove(at);
        }
        6 => bytes.truncate(at),
        _ => {
            let end = (at + 1 + dice.below(16)).min(bytes.len());
            let part = bytes[at..end].to_vec();
            let place = dice.below(bytes.len());
            bytes.splice(place..place, part);
        }
    }
}
