//! `infer`: a program with holes and a wish to an outline that is accepted.

use crate::command::input::{called, mistakes, read, Input};
use crate::command::judge::{judge, INDEPENDENT, JUDGE};
use crate::command::options::Options;
use crate::command::output::{Kind, Target};
use crate::command::progress::Progress;
use crate::command::{complain, interrupt, json, print, words, Done, Status};
use crate::further::{self, infer_first_by_published, Further, NO_VERDICT};
use crate::infer::{too_many, written, Answer, Breach, Found, NotFound, Tried, Wish, TRIES};
use crate::text::counted;
use crate::text::parse_source::parse_all;
use crate::text::source::Source;
use crate::text::{report, run};
use reference::explore::Run;

/// What is told, and how the command ends.
struct Told {
    answer: &'static str,
    lines: Vec<String>,
    status: Status,
    tried: Option<Tried>,
    /// What JSON has of further rules.
    further: Option<String>,
}

pub fn run(args: &[&str]) -> Done {
    let options = Options::read(args, &["-o", "--image", "--tries", "--further", "--json"])?;
    let file = options.file()?;
    let target = options.target(Kind::Outline)?;
    let image = options.image_target(&target)?;
    interrupt::watch();
    let Input::Text(text) = read(file)? else {
        return Err(format!("{}: this is an image, not an outline", called(file)));
    };
    let mut source = parse_all(&text).map_err(|all| mistakes(file, &text, &all))?;
    source.rules = options.rules();
    if source.certificate.is_some() {
        return Err(format!(
            "{}: a certificate is written out, so nothing is left to infer",
            called(file)
        ));
    }
    let wish = Wish::of(&source, false);
    if wish.is_empty() {
        let wanted = "a claim or an assertion that says more than `true`";
        return Err(format!("{}: nothing is wished: {wanted} is wanted", called(file)));
    }
    let most = options.tries.unwrap_or(TRIES);
    let told = match watched(&source, &wish, most) {
        Answer::Found(found) => {
            let outline = written(&text, &source, &found.source)?;
            let rules = further::used(&found.built.image);
            let outline = if rules.is_empty() { outline } else { marked(&rules, &outline) };
            target.write(outline.as_bytes())?;
            if let (Some(image), true) = (&image, rules.is_empty()) {
                image.write(&found.bytes)?;
            }
            match rules.is_empty() {
                true => accepted(&options, target.name(), &found),
                false => beyond(&options, target.name(), *found),
            }
        }
        Answer::NotFound(end) if end.stopped => {
            let mut told = not_found(&end, most);
            let best = end.best.map(|(best, _)| written(&text, &source, &best)).transpose()?;
            told.lines.push(kept(best, &target)?);
            told
        }
        other => not_accepted(&source, &other, most),
    };
    tell(&options, file, &told)?;
    Ok(told.status)
}

/// Writes the best outline until an interrupt, if there is one; what is told of it.
fn kept(best: Option<String>, target: &Target) -> Result<String, String> {
    let Some(best) = best else {
        return Ok("no outline was put together until then, and none is written".into());
    };
    target.write(best.as_bytes())?;
    Ok(format!("{}: the best outline until then, which is not accepted", target.name()))
}

/// Infers with progress on a terminal; an interrupt ends it, and what was found until then is told. Where further rules
/// are asked for, they serve only if nothing was found by the published ones.
fn watched(source: &Source, wish: &Wish, most: u64) -> Answer {
    let progress = Progress::on_terminal();
    infer_first_by_published(source, wish, most, &|done, all| {
        progress.at(done as usize, all as usize);
        !interrupt::is_noted()
    })
}

/// The outline with a comment in front that says by which rules it was found.
pub fn marked(rules: &[u8], outline: &str) -> String {
    format!("# {NO_VERDICT}: found with further {}.\n{outline}", further::named(rules))
}

/// What was found by further rules: no verdict, and no image.
fn beyond(options: &Options, target: &str, found: Found) -> Told {
    let tried_so_far = found.tried.clone();
    let outline = format!("{target}: an outline, {}", tried(&tried_so_far));
    let rules = further::used(&found.built.image);
    let further = Further::judged(found.built);
    let mut lines = vec![format!("{}   ({INDEPENDENT})", further.words()), outline];
    if let Some(image) = &options.image {
        lines.push(format!("{}: {}", called(image), further::not_written(&rules)));
    }
    let further = Some(json::further(&further));
    let answer = "found by further rules";
    Told { answer, lines, status: Status::Further, tried: Some(tried_so_far), further }
}

/// The source with its holes filled, what is given as it is; else what is told, and the status.
pub fn filled(source: Source) -> Result<Source, (Vec<String>, Status)> {
    if !source.has_holes() {
        return Ok(source);
    }
    match watched(&source, &Wish::of(&source, true), TRIES) {
        Answer::Found(found) => Ok(found.source),
        other => {
            let told = not_accepted(&source, &other, TRIES);
            Err((told.lines, told.status))
        }
    }
}

fn not_accepted(source: &Source, answer: &Answer, most: u64) -> Told {
    match answer {
        Answer::False(run, breach) => broken(source, run, breach),
        Answer::NotFound(end) => not_found(end, most),
        Answer::Found(_) => unreachable!("what was found is accepted"),
    }
}

fn accepted(options: &Options, target: &str, found: &Found) -> Told {
    let image = &found.built.image;
    let size = format!(
        "{} bytes, {} formulas, {} lines, {} obligations",
        found.bytes.len(),
        image.formulas.len(),
        image.lines.len(),
        image.obligations.len()
    );
    let verdict = words::verdict(&judge(&found.bytes), Some(&found.source), image.claims.len());
    let mut lines = vec![format!("{target}: an outline, {}", tried(&found.tried))];
    let name = options.image.as_deref().unwrap_or("its image");
    lines.push(format!("{name}: {size}"));
    lines.push(format!("{verdict}   ({JUDGE})"));
    if options.further {
        lines.push("no line goes by a further rule: this is by the published rules alone".into());
    }
    let tried = Some(found.tried.clone());
    Told { answer: "found", lines, status: Status::Accepted, tried, further: None }
}

/// How much was looked at.
fn tried(tried: &Tried) -> String {
    let all = if tried.all_states { "all " } else { "" };
    format!(
        "{} after {} tries, {all}{} looked at",
        counted(tried.runs, "run"),
        tried.tries,
        counted(tried.states, "state")
    )
}

/// The run that breaks the wish.
fn broken(source: &Source, found: &Run, breach: &Breach) -> Told {
    let steps = counted(found.steps.len(), "step");
    let names = &source.names;
    let (what, end) = match breach {
        Breach::Claim(meeting) => (
            "a claim",
            format!("claimed never to happen: {}", report::claim(names, Some(source), meeting)),
        ),
        Breach::Assertion((thread, point)) => {
            let said = &source.points[usize::from(*thread) - 1][usize::from(*point)];
            let name = names.thread(*thread);
            let said = names.assertion(&said.assertion);
            ("an assertion that is wished", format!("false: {name} at point {point}: {said}"))
        }
    };
    let mut lines = vec![format!("FALSE: a run of {steps} breaks {what}")];
    lines.extend(run::lines(&source.program(), names, found));
    lines.push(end);
    Told { answer: "false", lines, status: Status::Refused, tried: None, further: None }
}

fn not_found(end: &NotFound, most: u64) -> Told {
    let why = match (end.stopped, end.tried.tries >= most) {
        (true, _) => "interrupted",
        (_, true) => "the tries are spent",
        _ => "every way was tried",
    };
    let mut lines = vec![format!("NOT FOUND: {why}; {}", tried(&end.tried))];
    lines.push("no run breaks the wish, as far as was looked".into());
    lines.extend(end.stuck.iter().cloned());
    if let Some(clauses) = end.unwritten {
        let all = counted(clauses, "clause");
        lines.push(format!(
            "{all} that rest on each other were found, and no outline of them was certified"
        ));
    }
    if let Some((best, open)) = &end.best {
        let all = counted(open.len(), "obligation");
        lines.push(format!("the best outline leaves at least {all} or claims open, first:"));
        lines.extend(open.first().map(|goal| report::goal(best, goal)));
        lines.extend(too_many(best, open));
    }
    let tried = Some(end.tried.clone());
    Told { answer: "not found", lines, status: Status::NotFound, tried, further: None }
}

/// An outline on standard output leaves standard error for what is told.
fn tell(options: &Options, file: &str, told: &Told) -> Result<(), String> {
    let mut out = told.lines.join("\n") + "\n";
    if options.json {
        let mut all = vec![
            ("file", json::text(called(file))),
            ("answer", json::text(told.answer)),
            ("judge", json::text(JUDGE)),
        ];
        if let Some(tried) = &told.tried {
            all.push(("tries", tried.tries.to_string()));
            all.push(("runs", tried.runs.to_string()));
            all.push(("states", tried.states.to_string()));
            all.push(("all_states", tried.all_states.to_string()));
        }
        if options.further {
            all.push(("further", told.further.clone().unwrap_or("null".into())));
        }
        all.push(("told", json::texts(&told.lines)));
        out = json::answer("infer", told.status, &all);
    }
    let taken = [options.target.as_deref(), options.image.as_deref()].contains(&Some("-"));
    if taken {
        complain(out);
        return Ok(());
    }
    print(out)
}
