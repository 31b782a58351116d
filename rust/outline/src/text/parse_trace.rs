//! Traces: a step on each line, as a thread and a position from 0, or as `explore` prints it.

use super::lex::{Mistake, Place};
use super::lines::words;
use super::print::Names;

/// A trace as it was read: the bytes of its steps, and of a run in words what the words say.
#[derive(Debug, Clone, Default, PartialEq, Eq)]
pub struct Trace {
    /// Two for each step.
    pub bytes: Vec<u8>,
    /// What is said of each step, behind its number; nothing of steps that are a thread and a position.
    pub told: Vec<Said>,
    /// The line of the registers at the start.
    pub start: Option<Said>,
    /// The lines of the registers at the end and of what was written.
    pub end: Vec<Said>,
}

/// A line of a run, with one space between its words.
#[derive(Debug, Clone, PartialEq, Eq)]
pub struct Said {
    pub line: usize,
    pub text: String,
}

impl Said {
    /// Something that is wrong with it.
    pub fn mistake(&self, text: String) -> Mistake {
        Mistake { line: Place::from(self.line), text }
    }
}

/// A trace from its text, or all mistakes of the text. `#` begins a comment. Where lines begin with a number and a dot, as
/// those of `explore` do, they are the steps; of the other lines those about the start and the end of the run are kept.
pub fn trace(names: &Names, text: &str) -> Result<Trace, Vec<Mistake>> {
    let (mut trace, mut mistakes) = (Trace::default(), Vec::new());
    let is_told = text.lines().any(|line| numbered(&joined(line)).is_some());
    for (line, content) in (1..).zip(text.lines()) {
        let said = Said { line, text: joined(content) };
        let read = match is_told {
            true => trace.read_told(names, said),
            false => trace.read_plain(names, &said.text),
        };
        mistakes.extend(read.err().map(|text| Mistake { line: Place::from(line), text }));
    }
    match mistakes.is_empty() {
        true => Ok(trace),
        false => Err(mistakes),
    }
}

/// The words of a line before its comment, with one space between them.
pub fn joined(content: &str) -> String {
    words(content).collect::<Vec<&str>>().join(" ")
}

impl Trace {
    fn read_plain(&mut self, names: &Names, text: &str) -> Result<(), String> {
        if !text.is_empty() {
            self.bytes.extend(step(names, &words(text).collect::<Vec<&str>>())?);
        }
        Ok(())
    }

    /// Steps count from 1, so that a text with two runs is not taken for one.
    fn read_told(&mut self, names: &Names, said: Said) -> Result<(), String> {
        let Some((number, told)) = numbered(&said.text) else {
            return self.read_around(names, said);
        };
        let next = self.told.len() + 1;
        if number != next.to_string() {
            return Err(format!(
                "step {number} stands where step {next} is wanted: a trace is one run"
            ));
        }
        self.bytes.extend(told_step(names, told)?);
        let text = told.to_string();
        self.told.push(Said { text, ..said });
        Ok(())
    }

    /// A line without a number beside lines that have one.
    fn read_around(&mut self, names: &Names, said: Said) -> Result<(), String> {
        let text = &said.text;
        if step(names, &words(text).collect::<Vec<&str>>()).is_ok() {
            return Err(format!("the step `{text}` has no number, and others have one"));
        }
        if text.starts_with("start: ") {
            self.start = Some(said);
        } else if text.starts_with("then ") || text.contains(" was written ") {
            self.end.push(said);
        }
        Ok(())
    }
}

/// The number in front of a line that `explore` prints, and what stands behind it and its dot.
fn numbered(text: &str) -> Option<(&str, &str)> {
    let (number, told) = text.split_once(". ")?;
    let digits = !number.is_empty() && number.bytes().all(|byte| byte.is_ascii_digit());
    digits.then_some((number, told))
}

/// `writer: data := 1 writes 1 behind write 1`: writes count from 1 there, and a step without one picks none.
fn told_step(names: &Names, told: &str) -> Result<[u8; 2], String> {
    let (thread, done) = told.split_once(": ").ok_or("no thread stands behind the number")?;
    let write = done.rsplit_once(" write ");
    let write = write.filter(|(front, _)| front.ends_with(" from") || front.ends_with(" behind"));
    let number = write.map(|(_, rest)| rest.split([',', ' ']).next().unwrap_or_default());
    let position = match number {
        None => 0,
        Some(number) => number
            .parse::<u16>()
            .ok()
            .and_then(|number| u8::try_from(number.checked_sub(1)?).ok())
            .ok_or_else(|| format!("`{number}` is no write: they count from 1 to 256"))?,
    };
    Ok([thread_number(names, thread)?, position])
}

/// A thread and a position.
fn step(names: &Names, words: &[&str]) -> Result<[u8; 2], String> {
    let [thread, position] = words else {
        return Err("a step is a thread and a position".into());
    };
    let fault = || format!("`{position}` is no position: they are 0 to 255");
    Ok([thread_number(names, thread)?, position.parse().map_err(|_| fault())?])
}

/// A thread by its name, or by a number, which need not be one that is there.
fn thread_number(names: &Names, thread: &str) -> Result<u8, String> {
    let named = (1..).zip(&names.threads).find(|(_, name)| *name == thread);
    let number = named.map(|(number, _)| number).or_else(|| thread.parse().ok());
    number.ok_or_else(|| format!("`{thread}` is no thread: names, or numbers from 0 to 255"))
}

/// Registers with values, `a = 5, b = 3`: a byte for each register up to the last one named, 0 for the others.
pub fn given(names: &Names, text: &str) -> Result<Vec<u8>, String> {
    let mut bytes = vec![0; names.registers.len()];
    for part in text.split(',').filter(|part| !part.trim().is_empty()) {
        let (name, value) =
            part.split_once('=').ok_or(format!("`{}` is no `r = 1`", part.trim()))?;
        let (name, value) = (name.trim(), value.trim());
        let at = names.registers.iter().position(|register| register == name);
        let at = at.ok_or_else(|| format!("`{name}` is no register"))?;
        bytes[at] = value.parse().map_err(|_| format!("`{value}` is no value: 0 to 255"))?;
    }
    Ok(bytes)
}

#[cfg(test)]
mod tests {
    use super::*;

    fn names() -> Names {
        let list = |all: &[&str]| all.iter().map(|name| name.to_string()).collect();
        let (words, registers) = (list(&["data"]), list(&["a", "b"]));
        Names { words, registers, threads: list(&["writer", "reader"]), ..Names::default() }
    }

    fn bytes(text: &str) -> Vec<u8> {
        trace(&names(), text).expect("a trace").bytes
    }

    fn mistakes(text: &str) -> Vec<String> {
        trace(&names(), text).unwrap_err().iter().map(Mistake::to_string).collect()
    }

    #[test]
    fn steps_by_thread_and_position() {
        let text = "# a pad that fell\nwriter 0\n 2 1  # polls\n\nreader 255\n0 0\n9 3\n";
        assert_eq!(bytes(text), [1, 0, 2, 1, 2, 255, 0, 0, 9, 3]);
        assert_eq!(trace(&names(), "\n# nothing\n"), Ok(Trace::default()));
    }

    #[test]
    fn steps_as_they_are_told() {
        let text = "happens: a = 1, after 4 steps\n     start: a = 0, b = 3\n  1. writer: data := 1   writes 1 behind write 1\n  \
            2. reader: if a = 0 goto 0   goes to point 2\n  3. reader: a <- data   reads 1 from write 2  # stale\n  \
            4. writer: swap data := 3 | b := 4   reads 1, writes 3 behind write 3, gives 4\n     then a = 1\n\
            data was written 0, 1, 3\n";
        let trace = trace(&names(), text).expect("a trace");
        assert_eq!(trace.bytes, [1, 0, 2, 0, 2, 1, 1, 2]);
        let said = |line, text: &str| Said { line, text: text.into() };
        assert_eq!(trace.told[2], said(5, "reader: a <- data reads 1 from write 2"));
        assert_eq!(trace.start, Some(said(2, "start: a = 0, b = 3")));
        assert_eq!(trace.end, [said(7, "then a = 1"), said(8, "data was written 0, 1, 3")]);
    }

    #[test]
    fn mistakes_are_named_by_line() {
        let text = "writer 0\nwriter\nwriter 256\nnobody 1\nreader 1 2\n";
        let expected = [
            "line 2: a step is a thread and a position",
            "line 3: `256` is no position: they are 0 to 255",
            "line 4: `nobody` is no thread: names, or numbers from 0 to 255",
            "line 5: a step is a thread and a position",
        ];
        assert_eq!(mistakes(text), expected);
    }

    #[test]
    fn mistakes_of_runs_in_words() {
        for (text, want) in [
            (
                "1. writer: data := 1   writes 1 behind write 0",
                "line 1: `0` is no write: they count from 1 to 256",
            ),
            (
                "1. pen: launch missile",
                "line 1: `pen` is no thread: names, or numbers from 0 to 255",
            ),
            ("1. reader", "line 1: no thread stands behind the number"),
            (
                "2. reader: a := 1   gives 1",
                "line 1: step 2 stands where step 1 is wanted: a trace is one run",
            ),
            (
                "1. reader: a := 1   gives 1\nwriter 0",
                "line 2: the step `writer 0` has no number, and others have one",
            ),
        ] {
            assert_eq!(mistakes(text), [want]);
        }
    }

    #[test]
    fn given_registers() {
        assert_eq!(given(&names(), "b = 9"), Ok(vec![0, 9]));
        assert_eq!(given(&names(), "b=255, a = 1,"), Ok(vec![1, 255]));
        assert_eq!(given(&names(), ""), Ok(vec![0, 0]));
        assert_eq!(given(&names(), "c = 1"), Err("`c` is no register".into()));
        assert_eq!(given(&names(), "a"), Err("`a` is no `r = 1`".into()));
        assert_eq!(given(&names(), "a = 256"), Err("`256` is no value: 0 to 255".into()));
    }
}
