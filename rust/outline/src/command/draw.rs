//! `draw`: a run as SVG, one that breaks the outline or one that has an outcome.

use crate::command::explore::{condition_of, outcome_run, outcome_told};
use crate::command::finding::Finding;
use crate::command::input::called;
use crate::command::judge::judge;
use crate::command::options::Options;
use crate::command::output::Kind;
use crate::command::report::Loaded;
use crate::command::{complain, json, print, Done};
use crate::diagnosis::BOUNDS;
use crate::draw::{Ending, Picture};
use crate::markup::Element;
use crate::report::{picture, Content};
use crate::text::condition::Quantifier;
use reference::explore::Bounds;

pub fn run(args: &[&str]) -> Done {
    let allowed = ["-o", "--steps", "--writes", "--starts", "--states", "--outcome", "--json"];
    let options = Options::read(args, &allowed)?;
    let file = options.file()?;
    let target = options.target(Kind::Drawing)?;
    let loaded = Loaded::of(file)?;
    let to_break = options.outcome.is_none().then(|| options.bounds(BOUNDS));
    let content = loaded.content(&judge(loaded.bytes()), to_break)?;
    let content = content.ok_or_else(|| format!("{}: no program to run", called(file)))?;
    let drawn = match &options.outcome {
        Some(outcome) => with_outcome(&options, &content, outcome)?,
        None => breaking(&content),
    };
    if let Some(svg) = &drawn.svg {
        target.write((svg.written() + "\n").as_bytes())?;
    }
    tell(&options, target.name(), &drawn)?;
    Ok(drawn.finding.status())
}

/// What was found, in a line, and the drawing of a run.
struct Drawn {
    finding: Finding,
    text: String,
    svg: Option<Element>,
}

impl Drawn {
    fn nothing(finding: Finding, text: String) -> Drawn {
        Drawn { finding, text, svg: None }
    }

    fn run(text: String, svg: Element) -> Drawn {
        Drawn { finding: Finding::Happens, text, svg: Some(svg) }
    }
}

/// The run that matters most among those that break something.
fn breaking(content: &Content) -> Drawn {
    let Some(diagnosis) = &content.diagnosis else {
        return Drawn::nothing(Finding::Never, "accepted: no run breaks it".into());
    };
    let text = content.telling(|told| told.sentence(diagnosis));
    let text = format!("{}: {text}", diagnosis.answer().head());
    match diagnosis.worst() {
        Some(broken) => Drawn::run(text, picture(content, &broken).svg()),
        None => Drawn::nothing(Finding::of(false, &diagnosis.reach().cut), text),
    }
}

/// A run at whose end the registers are as asked.
fn with_outcome(options: &Options, content: &Content, outcome: &str) -> Result<Drawn, String> {
    let (program, names) = (&content.image.program, &content.words.names);
    let condition = condition_of(program, names, outcome)?;
    let sought = outcome_run(program, options.bounds(Bounds::DEFAULT), &condition);
    let text = outcome_told(&sought, &condition, outcome);
    let Some(run) = &sought.runs[0] else {
        return Ok(Drawn::nothing(Finding::of_one(&sought), text));
    };
    let ending = Ending::Outcome(match condition.quantifier {
        Quantifier::Forall => format!("not {outcome}"),
        _ => outcome.into(),
    });
    Ok(Drawn::run(text, Picture { program, names, run, ending }.svg()))
}

/// What was drawn goes to standard output, unless the drawing goes there.
fn tell(options: &Options, target: &str, drawn: &Drawn) -> Result<(), String> {
    let (text, is_drawn) = (&drawn.text, drawn.svg.is_some());
    let line = if options.json {
        let written = if is_drawn { json::text(target) } else { "null".into() };
        let all = [("written", written), ("told", json::text(text))];
        json::answer("draw", drawn.finding.status(), &all)
    } else if is_drawn {
        format!("{target}: {text}\n")
    } else {
        format!("nothing is drawn: {text}\n")
    };
    if target != "-" {
        return print(line);
    }
    complain(line);
    Ok(())
}
