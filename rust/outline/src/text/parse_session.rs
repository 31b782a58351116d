//! Sessions of a service: the rights of its callers, then a call a line.

use super::lex::{Mistake, Place};
use super::lines::{fault, mistake, number, words, Fault};
use super::parse_tariff::{cents, NO_PRICE};
use reference::bill::Tariff;
use reference::service::{Right, CALLERS};

/// A service as it is opened, and the calls to it in their order.
#[derive(Debug, Default, PartialEq, Eq)]
pub struct Session {
    pub rights: [u8; CALLERS],
    /// How many images of each caller are billed already.
    pub billed: [u32; CALLERS],
    pub calls: Vec<Asked>,
}

/// A call, as it stands in the text.
#[derive(Debug, PartialEq, Eq)]
pub struct Asked {
    /// Where its file is named.
    pub place: Place,
    pub caller: usize,
    pub file: String,
    pub wish: Wish,
}

/// What is asked about the file.
#[derive(Debug, PartialEq, Eq)]
pub enum Wish {
    Check,
    /// The trimmed image, written to a file if one is named.
    Trim(Option<String>),
    Bill(Tariff),
    /// Whether the new code may take over, by a table.
    Handover {
        new: String,
        table: String,
    },
    /// The replay of a trace.
    Replay {
        trace: String,
    },
    /// The replay of two traces, before and after new code takes over.
    Across {
        new: String,
        table: String,
        traces: [String; 2],
    },
}

impl Asked {
    /// The files that the call reads.
    pub fn files(&self) -> Vec<&str> {
        let more: Vec<&String> = match &self.wish {
            Wish::Check | Wish::Trim(_) | Wish::Bill(_) => Vec::new(),
            Wish::Handover { new, table } => vec![new, table],
            Wish::Replay { trace } => vec![trace],
            Wish::Across { new, table, traces: [first, second] } => vec![new, table, first, second],
        };
        [&self.file].into_iter().chain(more).map(String::as_str).collect()
    }

    /// The file that it writes.
    pub fn target(&self) -> Option<&str> {
        match &self.wish {
            Wish::Trim(target) => target.as_deref(),
            _ => None,
        }
    }
}

const RIGHTS: [(&str, Right); 3] =
    [("check", Right::Check), ("replay", Right::Replay), ("bill", Right::Bill)];

/// A session, or all mistakes of the text.
pub fn session(text: &str) -> Result<Session, Vec<Mistake>> {
    let (mut session, mut mistakes) = (Session::default(), Vec::new());
    let mut named = [false; CALLERS];
    for (line, content) in (1..).zip(text.lines()) {
        let told = match words(content).next() {
            None => Ok(()),
            Some("caller") => desk(content, &mut session, &mut named),
            Some(_) => asked(line, content).map(|asked| session.calls.push(asked)),
        };
        if let Err(fault) = told {
            mistakes.push(mistake(line, fault));
        }
    }
    match mistakes.is_empty() {
        true => Ok(session),
        false => Err(mistakes),
    }
}

/// `caller N may check, bill` or `caller N billed 41`, before any call.
fn desk(content: &str, session: &mut Session, named: &mut [bool; CALLERS]) -> Result<(), Fault> {
    if !session.calls.is_empty() {
        return Err(fault(content, 0, "comes too late: rights are fixed before the first call"));
    }
    let given: Vec<&str> = words(content).collect();
    let place = given.get(1).and_then(|word| number::<usize>(word));
    let place = place.and_then(|caller| caller.checked_sub(1)).filter(|&at| at < CALLERS);
    let Some(place) = place else {
        let at = usize::from(given.len() > 1);
        return Err(fault(content, at, "is no caller of a service: these are 1 to 8"));
    };
    match given[2..] {
        ["may", ..] if named[place] => Err(fault(content, 1, "has its rights already")),
        ["may", ref rights @ ..] if !rights.is_empty() => {
            named[place] = true;
            session.rights[place] = all_rights(content, rights)?;
            Ok(())
        }
        ["billed", count] => {
            let count = number(count);
            session.billed[place] =
                count.ok_or_else(|| fault(content, 3, "is no number up to 4294967295"))?;
            Ok(())
        }
        _ => Err(fault(content, 1, "is followed by `may` and rights, or by `billed` and a number")),
    }
}

/// Rights with commas or without; `nothing` is none.
fn all_rights(content: &str, given: &[&str]) -> Result<u8, Fault> {
    let mut rights = 0;
    for (at, word) in (3..).zip(given) {
        let word = word.trim_end_matches(',');
        match RIGHTS.iter().find(|(name, _)| *name == word) {
            Some((_, right)) => rights |= *right as u8,
            None if word == "nothing" => {}
            None => return Err(fault(content, at, "is no right: `check`, `replay` or `bill`")),
        }
    }
    Ok(rights)
}

/// A caller's number, a call, a file, and what the call wants besides.
fn asked(line: usize, content: &str) -> Result<Asked, Fault> {
    let given: Vec<&str> = words(content).collect();
    let caller = number(given[0]);
    let caller = caller.ok_or_else(|| {
        fault(content, 0, "begins no line: `caller N may ..`, or a caller's number and its call")
    })?;
    let wish = match given[1..] {
        ["check", _] => Wish::Check,
        ["trim", _] => Wish::Trim(None),
        ["trim", _, target] => Wish::Trim(Some(target.into())),
        ["bill", _, ref prices @ ..] => Wish::Bill(tariff(content, prices)?),
        ["handover", _, new, table] => Wish::Handover { new: new.into(), table: table.into() },
        ["replay", _, trace] => Wish::Replay { trace: trace.into() },
        ["across", _, new, table, first, second] => Wish::Across {
            new: new.into(),
            table: table.into(),
            traces: [first.into(), second.into()],
        },
        [] => return Err(fault(content, 0, "asks nothing: a call and a file are wanted")),
        [call, ..] => return Err(fault(content, 1, wanted(call))),
    };
    let (column, _) = fault(content, 2, "");
    Ok(Asked { place: Place { line, column }, caller, file: given[2].into(), wish })
}

/// What is wrong with a call that has too few or too many words, or that is none.
fn wanted(call: &str) -> &'static str {
    match call {
        "check" => "wants one file",
        "trim" => "wants a file, or two",
        "bill" => "wants a file and five prices",
        "handover" => "wants three files: old code, new code, table",
        "replay" => "wants two files: code and trace",
        "across" => "wants five files: old code, new code, table, two traces",
        _ => "is no call: `check`, `trim`, `bill`, `handover`, `replay` or `across`",
    }
}

/// Five prices, in the order of the classes, the least charge last.
fn tariff(content: &str, prices: &[&str]) -> Result<Tariff, Fault> {
    let &[start, step, taken, interference, least] = prices else {
        return Err(fault(
            content,
            1,
            "wants a file and five prices: start step taken interference least",
        ));
    };
    let price = |at: usize, word| cents(word).ok_or_else(|| fault(content, at, NO_PRICE));
    Ok(Tariff {
        start: price(3, start)?,
        step: price(4, step)?,
        taken: price(5, taken)?,
        interference: price(6, interference)?,
        least: price(7, least)?,
    })
}

#[cfg(test)]
mod tests {
    use super::*;

    #[test]
    fn rights_then_calls() {
        let text = "# two callers\ncaller 1 may check, bill\ncaller 2 may replay\ncaller 2 billed 41\n\
                    1 check a.image\n  9 trim b.image c.image # kept\n2 bill a.image 1 2 3 4 65535\n";
        let found = session(text).expect("a session");
        assert_eq!(found.rights, [5, 2, 0, 0, 0, 0, 0, 0]);
        assert_eq!(found.billed, [0, 41, 0, 0, 0, 0, 0, 0]);
        let tariff = Tariff { start: 1, step: 2, taken: 3, interference: 4, least: 65_535 };
        let wishes = [Wish::Check, Wish::Trim(Some("c.image".into())), Wish::Bill(tariff)];
        assert!(found.calls.iter().map(|call| &call.wish).eq(&wishes));
        assert!(found.calls.iter().map(|call| call.caller).eq([1, 9, 2]));
        assert_eq!(found.calls[1].place, Place { line: 6, column: 10 });
        assert_eq!(session("").expect("none").calls, []);
    }

    #[test]
    fn every_mistake_is_named() {
        let text = "caller 9 may check\ncaller\ncaller 1 may fly\ncaller 2 may\ncaller 3 may nothing\n\
                    caller 3 may bill\ncaller 4 billed 4294967296\nfirst check a\n1\n1 pay a\n2 check\n2 check a b\n\
                    2 trim a b c\n1 bill a 1 2 3 4\n1 bill a 1 2 3 4 65536\n1 check a\ncaller 5 may bill\n";
        let told: Vec<String> = session(text)
            .unwrap_err()
            .iter()
            .map(|m| format!("{}:{} {}", m.line.line, m.line.column, m.text))
            .collect();
        let expected = [
            "1:8 `9` is no caller of a service: these are 1 to 8",
            "2:1 `caller` is no caller of a service: these are 1 to 8",
            "3:14 `fly` is no right: `check`, `replay` or `bill`",
            "4:8 `2` is followed by `may` and rights, or by `billed` and a number",
            "6:8 `3` has its rights already",
            "7:17 `4294967296` is no number up to 4294967295",
            "8:1 `first` begins no line: `caller N may ..`, or a caller's number and its call",
            "9:1 `1` asks nothing: a call and a file are wanted",
            "10:3 `pay` is no call: `check`, `trim`, `bill`, `handover`, `replay` or `across`",
            "11:3 `check` wants one file",
            "12:3 `check` wants one file",
            "13:3 `trim` wants a file, or two",
            "14:3 `bill` wants a file and five prices: start step taken interference least",
            "15:18 `65536` is no price: cents are 0 to 65535",
            "17:1 `caller` comes too late: rights are fixed before the first call",
        ];
        assert_eq!(told, expected);
    }
}
