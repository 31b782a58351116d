//! `replay`: the steps that a pad left, run on the machine of an accepted image.

use crate::command::input::{called, mistake, mistakes, read_bytes, text_of, Subject};
use crate::command::judge::judge;
use crate::command::options::Options;
use crate::command::output::Kind;
use crate::command::replayer::{replay, REPLAYER};
use crate::command::{complain, json, print, words, Done, Status};
use crate::draw::{Ending, Picture};
use crate::markup::Element;
use crate::text::compare::compared;
use crate::text::parse_trace::{given, trace, Trace};
use crate::text::print::Names;
use crate::text::refusal::refusal;
use crate::text::{counted, run};
use reference::checker::accepted;
use reference::explore::Run;
use reference::image::Program;
use reference::machine::{State, Step};
use reference::replay::{
    entry_bytes, replayed, start, Replay, ANSWER, MOST_WRITES, NOT_ACCEPTED, WRITE_BYTES,
};

/// A drawing has no more steps.
const MOST_DRAWN: usize = 200;

pub fn run(args: &[&str]) -> Done {
    let options = Options::read(args, &["-o", "--given", "--entries", "--json"])?;
    let [file, trace_file] = &options.files[..] else {
        return Err("an outline or image and a trace are wanted; see outline --help".into());
    };
    if file == "-" && trace_file == "-" {
        return Err("standard input is one file: the image or the trace".into());
    }
    let target = options.target.is_some().then(|| options.target(Kind::Drawing)).transpose()?;
    let subject = Subject::of(file)?;
    let Some(image) = accepted(&subject.bytes) else {
        return refused(&options, file, &subject);
    };
    let names = subject.names(&image.program);
    let trace = read_trace(trace_file, &names)?;
    let given = given_bytes(&options, &trace, &image.program, &names)?;
    let first = start(&image.program.header, &given);
    compared(&image.program, &names, &first, &trace)
        .map_err(|differs| mistake(trace_file, "", &differs))?;
    let entries = options.entries.unwrap_or(MOST_WRITES);
    let call = Call { trace: trace.bytes, given, entries };
    let replayed = call.replayed(&subject.bytes, &image.program)?;
    let told = Told::of(&image.program, &names, &call, &replayed);
    if let Some(target) = target {
        target.write((told.drawn()?.written() + "\n").as_bytes())?;
    }
    let text = if options.json { told.json(file) } else { told.lines().join("\n") + "\n" };
    tell(&options, &text)?;
    Ok(if replayed.code == 0 { Status::Accepted } else { Status::Refused })
}

/// What a call is given besides the image.
struct Call {
    trace: Vec<u8>,
    given: Vec<u8>,
    entries: usize,
}

impl Call {
    /// The replay, of which answer and table have to be the independent ones.
    fn replayed(&self, image: &[u8], program: &Program) -> Result<Replay, String> {
        let (mut table, mut answer) = (vec![0; self.entries * WRITE_BYTES], [0; ANSWER]);
        let code = replay(image, &self.trace, &self.given, &mut table, &mut answer);
        let expected = replayed(Some(program), &self.trace, &self.given, self.entries);
        let (mut other_table, mut other) = (vec![0; table.len()], [0; ANSWER]);
        let other_code = expected.put(&mut other_table, &mut other);
        if (code, answer, table) != (other_code, other, other_table) {
            return Err(format!("the replays disagree: {code} {answer:?}, {other_code} {other:?}"));
        }
        Ok(expected)
    }
}

/// A trace of bytes, or one that a text stands for. Threads are few, so bytes have one that no text has.
pub fn read_trace(file: &str, names: &Names) -> Result<Trace, String> {
    let bytes = read_bytes(file)?;
    if bytes.is_empty() || bytes.iter().any(|&byte| byte < b'\t') {
        return Ok(Trace { bytes, ..Trace::default() });
    }
    let text = text_of(bytes).map_err(|fault| format!("{}{fault}", called(file)))?;
    trace(names, &text).map_err(|all| mistakes(file, &text, &all))
}

/// The bytes of registers, which have to be open: as asked, else as a run in words begins.
fn given_bytes(
    options: &Options,
    trace: &Trace,
    program: &Program,
    names: &Names,
) -> Result<Vec<u8>, String> {
    let said = trace.start.as_ref().and_then(|said| said.text.strip_prefix("start: "));
    let (from, text) = match (&options.given, said) {
        (Some(given), _) => ("--given", given.as_str()),
        (None, said) => ("start", said.unwrap_or_default()),
    };
    let bytes = given(names, text).map_err(|text| format!("{from}: {text}"))?;
    let closed = (1..).zip(&bytes).find(|(r, &byte)| byte != 0 && program.header.is_cleared(*r));
    match closed {
        Some((r, _)) => Err(format!("{from}: `{}` starts at 0", names.register(r))),
        None => Ok(bytes),
    }
}

/// A replay with what is needed to tell it.
struct Told<'a> {
    program: &'a Program,
    names: &'a Names,
    call: &'a Call,
    replay: &'a Replay,
    run: Run,
    /// The steps as they are told.
    steps: Vec<String>,
    end: State,
}

impl<'a> Told<'a> {
    fn of(program: &'a Program, names: &'a Names, call: &'a Call, replay: &'a Replay) -> Told<'a> {
        let pairs = call.trace.chunks_exact(2).take(replay.steps);
        let steps = pairs.map(|pair| Step { thread: pair[0], position: pair[1].into() });
        let run = Run { start: start(&program.header, &call.given), steps: steps.collect() };
        let (steps, end) = run::steps(program, names, &run);
        Told { program, names, call, replay, run, steps, end }
    }

    /// The steps, the state reached, and how the run ended.
    fn lines(&self) -> Vec<String> {
        let table = run::table(self.names, &self.end, &self.replay.writes);
        self.steps.iter().cloned().chain(table).chain([self.points(), self.ended()]).collect()
    }

    fn points(&self) -> String {
        let points = (1..).zip(&self.end.points);
        let all: Vec<String> = points.map(|(t, point)| self.names.at(t, *point)).collect();
        format!("     {}", all.join(", "))
    }

    fn ended(&self) -> String {
        let taken = counted(self.run.steps.len(), "step");
        if self.replay.code == 0 {
            return format!("the trace ended after {taken}   ({REPLAYER})");
        }
        let rest = &self.call.trace[2 * self.replay.steps..];
        let why = refusal(self.program, self.names, &self.end, rest, self.call.entries);
        format!("REFUSED after {taken} (code {}): {why}   ({REPLAYER})", self.replay.code)
    }

    fn drawn(&self) -> Result<Element, String> {
        if self.run.steps.len() > MOST_DRAWN {
            return Err(format!("a drawing has at most {MOST_DRAWN} steps"));
        }
        let ending = Ending::Outcome(self.points().trim().into());
        let Told { program, names, run, .. } = self;
        Ok(Picture { program, names, run, ending }.svg())
    }

    fn json(&self, file: &str) -> String {
        let numbers = |all: &[u8]| json::list(all.iter().map(u8::to_string));
        let entry = |write| numbers(&entry_bytes(write));
        let status = if self.replay.code == 0 { Status::Accepted } else { Status::Refused };
        json::answer(
            "replay",
            status,
            &[
                ("file", json::text(called(file))),
                ("code", self.replay.code.to_string()),
                ("steps", self.replay.steps.to_string()),
                ("points", numbers(&self.replay.points)),
                ("registers", numbers(&self.replay.registers)),
                ("table", json::list(self.replay.writes.iter().map(entry))),
                ("told", json::texts(&self.lines())),
                ("replayer", json::text(REPLAYER)),
            ],
        )
    }
}

/// Says why nothing is replayed, with the verdict.
fn refused(options: &Options, file: &str, subject: &Subject) -> Done {
    let said = words::verdict(&judge(&subject.bytes), subject.source(), subject.claims());
    let said = format!("NOT REPLAYED (code {NOT_ACCEPTED}): {said}");
    let text = if options.json {
        let all = [
            ("file", json::text(called(file))),
            ("code", NOT_ACCEPTED.to_string()),
            ("told", json::texts(&[said])),
            ("replayer", json::text(REPLAYER)),
        ];
        json::answer("replay", Status::Refused, &all)
    } else {
        format!("{}: {said}   ({REPLAYER})\n", called(file))
    };
    print(text)?;
    Ok(Status::Refused)
}

/// Words go to standard output, unless the drawing goes there.
fn tell(options: &Options, text: &str) -> Result<(), String> {
    if options.target.as_deref() != Some("-") {
        return print(text);
    }
    complain(text);
    Ok(())
}
