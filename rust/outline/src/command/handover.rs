//! `handover`: new code for old without a restart. Finds the table that permits it, or judges one that is there.

use crate::command::input::{called, read_bytes, Subject};
use crate::command::judge::{judge, JUDGE};
use crate::command::options::Options;
use crate::command::output::{Kind, Prepared, Target};
use crate::command::permit::{code, PERMIT};
use crate::command::{complain, json, print, words, Done, Status};
use crate::diagnosis::BOUNDS;
use crate::handover::{find, handover, Chosen, Found, Move, Open};
use crate::image::to_bytes;
use crate::text::print::Names;
use crate::text::{counted, run};
use reference::checker::decode;
use reference::checker::rules::justified_lines;
use reference::explore::{across, BreakAcross, Run};
use reference::handover::{entries, places, Entry, OUT_OF_RANGE, UNLIKE};
use reference::image::written::Written;
use reference::image::{Header, Image, Program};
use reference::machine::{take, State};

/// What is told, and what the call comes to.
struct Answer {
    code: u16,
    said: Vec<String>,
}

pub fn run(args: &[&str]) -> Done {
    let options = Options::read(args, &["-o", "--table", "--map", "--json"])?;
    let [old, new] = &options.files[..] else {
        return Err("an old and a new file are wanted; see outline --help".into());
    };
    let Some(table) = &options.table else {
        return Err("`--table FILE` is wanted; see outline --help".into());
    };
    let targets = options.target.is_some().then(|| targets(&options, table)).transpose()?;
    let (old, new) = (Side::of(old)?, Side::of(new)?);
    let answer = match (refused(&old).or_else(|| refused(&new)), &targets) {
        (Some(answer), _) => answer,
        (None, Some(targets)) => {
            let [old, new] = [Code::of(&old), Code::of(&new)];
            sought(&options, &old, &new, targets)?
        }
        (None, None) if !options.map.is_empty() => {
            return Err("`--map` is for a table that is sought: `-o FILE` is wanted".into());
        }
        (None, None) => judged(&Code::of(&old), &Code::of(&new), table)?,
    };
    tell(&options, &answer)?;
    Ok(if answer.code == 0 { Status::Accepted } else { Status::Refused })
}

/// The places for the image and the table, which are two.
fn targets(options: &Options, table: &str) -> Result<[Target; 2], String> {
    let inputs: Vec<&str> = options.files.iter().map(String::as_str).collect();
    let targets = [options.target(Kind::Image)?, Target::of(table, Kind::Table, &inputs)?];
    match targets[0].is(&targets[1]) {
        true => Err(format!("{table}: the image and the table are two files")),
        false => Ok(targets),
    }
}

/// A file of the two.
struct Side {
    file: String,
    subject: Subject,
}

impl Side {
    fn of(file: &str) -> Result<Side, String> {
        Ok(Side { file: called(file).into(), subject: Subject::of(file)? })
    }
}

/// An image that is not accepted.
fn refused(side: &Side) -> Option<Answer> {
    let verdict = judge(&side.subject.bytes);
    if verdict.code == 0 {
        return None;
    }
    let said = words::verdict(&verdict, side.subject.source(), side.subject.claims());
    let file = &side.file;
    let first = format!("{file}: {said}   ({JUDGE})");
    let second = format!("{file}: only accepted images are handed over (code 32)");
    Some(Answer { code: UNLIKE, said: vec![first, second] })
}

/// An accepted image with its names.
struct Code<'a> {
    file: &'a str,
    bytes: &'a [u8],
    image: Image,
    names: Names,
    side: &'a Side,
}

impl Code<'_> {
    fn of(side: &Side) -> Code<'_> {
        let image = decode(&side.subject.bytes).expect("accepted");
        let names = side.subject.names(&image.program);
        Code { file: &side.file, bytes: &side.subject.bytes, image, names, side }
    }

    fn program(&self) -> &Program {
        &self.image.program
    }

    /// A point of a thread by its number or its label.
    fn point(&self, thread: u8, text: &str) -> Option<u8> {
        let index = usize::from(thread) - 1;
        let labels = self.side.subject.source().map(|source| &source.labels[index]);
        let labelled = labels.and_then(|l| l.iter().position(|l| l.as_deref() == Some(text)));
        let found = labelled.or_else(|| text.parse().ok())?;
        (found < self.program().outline[index].len()).then_some(found as u8)
    }

    fn assertion(&self, thread: u8, point: u8) -> String {
        self.names.assertion(self.program().assertion(thread, point))
    }

    /// A point in words, with its label and its source line where there is a source.
    fn place(&self, thread: u8, point: u8) -> String {
        let source = self.side.subject.source();
        let line = source.map(|s| s.points[usize::from(thread) - 1][usize::from(point)].line);
        let line = line.map(|line| format!("line {line}"));
        let label = source.and_then(|s| s.names.label(thread, point)).map(String::from);
        let known: Vec<String> = label.into_iter().chain(line).collect();
        let known =
            if known.is_empty() { String::new() } else { format!(" ({})", known.join(", ")) };
        format!("{} {point}{known}", self.names.thread(thread))
    }

    /// A point of a thread that was named already: its number, and its label where it has one.
    fn number(&self, thread: u8, point: u8) -> String {
        let source = self.side.subject.source();
        let label = source.and_then(|s| s.names.label(thread, point));
        label.map_or(point.to_string(), |label| format!("{point} ({label})"))
    }
}

/// In what two headers differ; none if they are alike.
fn unlike(old: &Header, new: &Header) -> Option<&'static str> {
    let (one, other) = (old.counts, new.counts);
    let fields = [
        (one.threads == other.threads, "number of threads"),
        (one.words == other.words, "number of words"),
        (one.registers == other.registers, "number of registers"),
        (one.range == other.range, "range"),
        (old.start == new.start, "start values"),
        (old.owners == new.owners, "owners of registers"),
        (old.marks == new.marks, "registers that are cleared at the start"),
    ];
    fields.iter().find(|(same, _)| !same).map(|(_, field)| *field)
}

fn told_unlike(old: &Code, new: &Code) -> Option<Answer> {
    let field = unlike(&old.program().header, &new.program().header)?;
    let (old, new) = (old.file, new.file);
    let said =
        format!("REFUSED: {old} and {new} do not have the same {field} (code 32)   ({PERMIT})");
    Some(Answer { code: UNLIKE, said: vec![said] })
}

/// Points that the command line chooses: `THREAD.POINT=POINT`.
fn chosen(options: &Options, old: &Code, new: &Code) -> Result<Chosen, String> {
    let read = |text: &String| {
        let (from, to) = text.split_once('=')?;
        let (thread, from) = from.rsplit_once('.')?;
        let thread = old.names.threads.iter().position(|name| name == thread)? as u8 + 1;
        Some(((thread, old.point(thread, from)?), new.point(thread, to)?))
    };
    let wanted = "`--map` wants THREAD.POINT=POINT, an old point and one of the same thread in the new code, found";
    options.map.iter().map(|text| read(text).ok_or(format!("{wanted} `{text}`"))).collect()
}

/// Seeks a table; image and table are written if there is a line for each old point.
fn sought(
    options: &Options,
    old: &Code,
    new: &Code,
    [target, table]: &[Target; 2],
) -> Result<Answer, String> {
    if let Some(answer) = told_unlike(old, new) {
        return Ok(answer);
    }
    let chosen = chosen(options, old, new)?;
    let written = Written::read(new.bytes).expect("accepted");
    let found = find(old.program(), &new.image, written, new.names.clone(), &chosen);
    if !found.open.is_empty() {
        return Ok(Answer {
            code: reference::handover::DOES_NOT_SERVE,
            said: open_ones(old, new, &found),
        });
    }
    let bytes = to_bytes(&found.image).map_err(|e| format!("{}: {e}", target.name()))?;
    let lines = found.table();
    let (verdict, code) = (judge(&bytes), code(old.bytes, &bytes, &lines));
    if (verdict.code, code) != (0, 0) {
        return Err(format!(
            "mistake in this tool: the verdict is {verdict}, the handover's code {code}"
        ));
    }
    let files = [target.prepared(&bytes)?, table.prepared(&lines)?];
    files.into_iter().try_for_each(Prepared::put)?;
    let (target, table) = (target.name(), table.name());
    let (formulas, all) = (found.image.formulas.len(), found.image.lines.len());
    let mut said =
        vec![format!("{target}: {} bytes, {formulas} formulas, {all} lines", bytes.len())];
    said.push(format!("{table}: {} bytes", lines.len()));
    said.extend(found.moves.iter().map(|step| moved(old, new, step)));
    if found.only_here() > 0 {
        let here = counted(found.only_here(), "line");
        said.push(format!("{here} for the table alone: `outline trim` would drop them"));
    }
    said.push(permitted(found.moves.len()));
    Ok(Answer { code, said })
}

fn permitted(points: usize) -> String {
    format!("PERMITTED: {} with a line   ({PERMIT})", counted(points, "old point"))
}

fn moved(old: &Code, new: &Code, step: &Move) -> String {
    let (thread, from) = step.from;
    let same =
        match old.program().assertion(thread, from) == new.program().assertion(thread, step.to) {
            true => ", the same assertion",
            false => "",
        };
    format!(
        "  {} -> {}   line {}{same}",
        old.place(thread, from),
        new.place(thread, step.to),
        step.line
    )
}

/// The old points without a line, and a run that shows why.
fn open_ones(old: &Code, new: &Code, found: &Found) -> Vec<String> {
    let mut said = Vec::new();
    for Open { from: (thread, from), tried, told, given_up } in &found.open {
        let to = tried[0];
        let what = match tried.len() {
            1 => format!("does not give that of new point {}", new.number(*thread, to)),
            n => format!("gives that of none of the {n} new points"),
        };
        said.push(format!("open: {}: its assertion {what}", old.place(*thread, *from)));
        said.push(format!("  old          {}", old.assertion(*thread, *from)));
        said.push(format!("  new {to}        {}", new.assertion(*thread, to)));
        said.extend(told.iter().map(|line| format!("  {line}")));
        said.extend(given_up.map(|tries| format!("  given up     after {tries} tries")));
    }
    let tried = handover(old.program(), new.program(), found);
    let looked = across(&tried, BOUNDS);
    match &looked.broken {
        Some(broken) => {
            said.extend(false_run(old, new, &tried.mapped(&ended(old, broken)), broken))
        }
        None if looked.all => {
            said.push("no run across it ends in a false assertion (all states)".into())
        }
        None => {
            said.push("no run across it ends in a false assertion, as far as was looked".into())
        }
    }
    let (open, all) = (found.open.len(), found.open.len() + found.moves.len());
    said.push(format!("{open} of {all} old points have no line; nothing is written"));
    said
}

/// The state in which the old code is left.
fn ended(old: &Code, broken: &BreakAcross) -> State {
    let threads = &old.program().threads;
    broken.first.iter().fold(broken.start.clone(), |state, step| {
        take(threads, &state, *step).expect("a step of the run")
    })
}

fn false_run(old: &Code, new: &Code, mapped: &State, broken: &BreakAcross) -> Vec<String> {
    let BreakAcross { start, first, second, thread } = broken;
    let steps = [counted(first.len(), "step"), counted(second.len(), "step")];
    let mut said = vec![format!(
        "FALSE: a run of {}, the handover and {} breaks an assertion",
        steps[0], steps[1]
    )];
    let before = Run { start: start.clone(), steps: first.clone() };
    said.extend(run::lines(old.program(), &old.names, &before));
    let goes_on = |(thread, point): (u8, &u8)| new.names.at(thread, *point);
    let all: Vec<String> = (1..).zip(&mapped.points).map(goes_on).collect();
    said.push(format!("     handover: {}", all.join(", ")));
    let after = Run { start: mapped.clone(), steps: second.clone() };
    if !second.is_empty() {
        said.extend(run::lines(new.program(), &new.names, &after));
    }
    let threads = &new.program().threads;
    let end = second.iter().fold(mapped.clone(), |state, step| {
        take(threads, &state, *step).expect("a step of the run")
    });
    let point = end.points[usize::from(*thread) - 1];
    let at = new.names.at(*thread, point);
    said.push(format!("false: {at}: {}", new.assertion(*thread, point)));
    said
}

/// Judges a table that is there, and says where it fails.
fn judged(old: &Code, new: &Code, table: &str) -> Result<Answer, String> {
    if let Some(answer) = told_unlike(old, new) {
        return Ok(answer);
    }
    let lines = read_bytes(table)?;
    let code = code(old.bytes, new.bytes, &lines);
    let points = places(old.program()).count();
    let said = match code {
        0 => permitted(points),
        _ => format!("REFUSED: {} (code {code})   ({PERMIT})", why(old, new, &lines, code)),
    };
    Ok(Answer { code, said: vec![said] })
}

/// Why a table is refused.
fn why(old: &Code, new: &Code, table: &[u8], code: u16) -> String {
    let Some(entries) = entries(old.program(), table) else {
        let points = places(old.program()).count();
        let wanted = reference::handover::ENTRY_BYTES * points;
        return format!(
            "the table has {}; {points} old points want {wanted}",
            counted(table.len(), "byte")
        );
    };
    let justified = justified_lines(&new.image);
    let fails = |entry: &&Entry| match code {
        OUT_OF_RANGE => !entry.is_in_range(&new.image),
        _ => !entry.is_served(&old.image, &new.image, &justified),
    };
    let Some(Entry { thread, from, to, line }) = entries.iter().find(fails) else {
        return "the table".into();
    };
    let place = old.place(*thread, *from);
    match code {
        OUT_OF_RANGE => format!("{place}: there is no new point {to}, or no line {line}"),
        _ => format!(
            "{place}: line {line} is no justified implication from its assertion to that of new point {}",
            new.number(*thread, *to)
        ),
    }
}

/// Words go to standard output, unless a file goes there; what stays open goes to standard error.
fn tell(options: &Options, answer: &Answer) -> Result<(), String> {
    let mut text = answer.said.join("\n") + "\n";
    if options.json {
        let status = if answer.code == 0 { Status::Accepted } else { Status::Refused };
        let all = [
            ("permitted", (answer.code == 0).to_string()),
            ("code", answer.code.to_string()),
            ("told", json::texts(&answer.said)),
            ("handover", json::text(PERMIT)),
            ("judge", json::text(JUDGE)),
        ];
        text = json::answer("handover", status, &all);
    }
    let files = [options.target.as_deref(), options.table.as_deref()];
    if files.contains(&Some("-")) || (answer.code != 0 && !options.json) {
        complain(text);
        return Ok(());
    }
    print(text)
}
