//! `export --litmus`: the program of an outline or an image as a litmus test that herd7 reads.

use crate::command::explore::{condition_of, Subject};
use crate::command::input::called;
use crate::command::litmus::BOUNDS;
use crate::command::options::{Options, BOUND_OPTIONS};
use crate::command::output::Kind;
use crate::command::{complain, json, print, Done, Status};
use crate::litmus::write::written;

pub fn run(args: &[&str]) -> Done {
    let own = ["--litmus", "-o", "--outcome", "--json"];
    let options = Options::read(args, &[&BOUND_OPTIONS[..], &own].concat())?;
    let file = options.file()?;
    if !options.litmus {
        return Err("`--litmus` is wanted: a litmus test is what can be written".into());
    }
    let target = options.target.as_ref().map(|_| options.target(Kind::Litmus)).transpose()?;
    let subject = Subject::of(file)?;
    let condition =
        options.outcome.as_ref().map(|text| condition_of(&subject.program, &subject.names, text));
    let condition = condition.transpose()?;
    let title = title(file);
    let text = written(
        &subject.program,
        &subject.names,
        &title,
        condition.as_ref(),
        options.bounds(BOUNDS),
    )
    .map_err(|why| format!("{}: {why}", called(file)))?;
    let Some(target) = target else {
        return tell(&options, file, &text, None).map(|()| Status::Accepted);
    };
    target.write(text.as_bytes())?;
    tell(&options, file, &text, Some(target.name())).map(|()| Status::Accepted)
}

/// The test's name: the file's without its folder and what stands behind its first dot.
fn title(file: &str) -> String {
    let name = file.rsplit('/').next().unwrap_or_default();
    let stem = name.split('.').next().unwrap_or_default();
    let plain = |c: char| if c.is_ascii_alphanumeric() || "-+_".contains(c) { c } else { '_' };
    let title: String = stem.chars().map(plain).collect();
    if title.is_empty() || title == "-" {
        "program".into()
    } else {
        title
    }
}

fn tell(options: &Options, file: &str, text: &str, target: Option<&str>) -> Result<(), String> {
    let written = target.map_or("null".into(), json::text);
    let line = match (options.json, target) {
        (true, _) => json::answer(
            "export",
            Status::Accepted,
            &[
                ("file", json::text(called(file))),
                ("litmus", json::text(text)),
                ("written", written),
            ],
        ),
        (false, None) => text.to_string(),
        (false, Some(name)) => format!("{name}: a litmus test\n"),
    };
    if target == Some("-") {
        complain(line);
        return Ok(());
    }
    print(line)
}
