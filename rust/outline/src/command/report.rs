//! `report`: a page about an outline or an image.

use crate::command::date::date;
use crate::command::input::{called, read, Input, Subject};
use crate::command::judge::{judge, JUDGE};
use crate::command::names::shown;
use crate::command::options::{Options, BOUND_OPTIONS};
use crate::command::output::Kind;
use crate::command::{complain, json, print, words, Done, Status};
use crate::diagnosis::{Diagnosis, BOUNDS};
use crate::gallery::Header;
use crate::image;
use crate::judged::{is_accepted, judged, Goal};
use crate::report::sha256::digest;
use crate::report::words::Words;
use crate::report::{self, Content};
use reference::checker::{decode, Verdict};
use reference::explore::Bounds;
use reference::image::Meeting;
use std::path::Path;

pub fn run(args: &[&str]) -> Done {
    let own = ["-o", "--image", "--date", "--json"];
    let options = Options::read(args, &[&own[..], &BOUND_OPTIONS].concat())?;
    let file = options.file()?;
    let target = options.target(Kind::Page)?;
    let image = options.image_target(&target)?;
    let date = date(options.date.as_deref())?;
    let loaded = Loaded::of(file)?;
    let verdict = judge(loaded.bytes());
    let content = loaded.content(&verdict, Some(options.bounds(BOUNDS)))?;
    let about = report::Subject {
        file: &base_name(file),
        about: loaded.about(),
        bytes: loaded.bytes(),
        source: loaded.source(),
        date: &date,
        verdict,
        judge: JUDGE,
        content,
    };
    target.write(report::page(&about).as_bytes())?;
    if let Some(image) = &image {
        image.write(loaded.bytes())?;
    }
    tell(&options, target.name(), &loaded, &about)?;
    Ok(status(&verdict))
}

fn status(verdict: &Verdict) -> Status {
    match verdict.code {
        0 => Status::Accepted,
        _ => Status::Refused,
    }
}

/// What was written goes to standard output, unless the page goes there.
fn tell(
    options: &Options,
    target: &str,
    loaded: &Loaded,
    about: &report::Subject,
) -> Result<(), String> {
    let verdict = &about.verdict;
    let said = words::verdict(verdict, loaded.subject.source(), loaded.subject.claims());
    let content = about.content.as_ref();
    let answer = content.and_then(|content| Some((content, content.diagnosis.as_ref()?)));
    let answer = answer.map(|(content, diagnosis)| {
        let told = content.telling(|told| told.sentence(diagnosis));
        format!("{}: {told}\n", diagnosis.answer().head())
    });
    let line = if options.json {
        let key = content.and_then(|content| content.diagnosis.as_ref());
        let key = key.map_or("null".into(), |diagnosis| json::text(diagnosis.answer().key()));
        let mut all = vec![("file", json::text(about.file)), ("written", json::text(target))];
        all.extend(json::verdict(verdict, &said, loaded.subject.source()));
        all.push(("digest", json::text(&digest(loaded.bytes()))));
        all.push(("answer", key));
        all.push(("told", json::texts(answer.map(|line| line.trim_end().to_string()).as_ref())));
        json::answer("report", status(verdict), &all)
    } else {
        let image =
            options.image.iter().map(|image| format!("{image}: the image that was judged\n"));
        let image: String = image.collect();
        format!("{}{target}: {said}   ({JUDGE})\n{image}", answer.unwrap_or_default())
    };
    if target != "-" {
        return print(line);
    }
    complain(line);
    Ok(())
}

/// The file's name without its folder: a page says nothing of the machine that made it.
fn base_name(file: &str) -> String {
    let name = Path::new(called(file)).file_name();
    shown(&name.map_or_else(|| called(file).into(), |name| name.to_string_lossy().into_owned()))
}

/// A file as it was read, and what was made of it.
pub struct Loaded {
    input: Input,
    pub subject: Subject,
}

impl Loaded {
    pub fn of(file: &str) -> Result<Loaded, String> {
        let input = read(file)?;
        let subject = Subject::made(file, &input)?;
        Ok(Loaded { input, subject })
    }

    pub fn bytes(&self) -> &[u8] {
        &self.subject.bytes
    }

    /// The text of an outline, and its names.
    fn source(&self) -> Option<report::Source<'_>> {
        match (&self.input, self.subject.source()) {
            (Input::Text(text), Some(source)) => {
                Some(report::Source { text: text.as_bytes(), names: &source.names })
            }
            _ => None,
        }
    }

    /// What the comment at the front says.
    fn about(&self) -> Vec<String> {
        let Input::Text(text) = &self.input else { return Vec::new() };
        let Ok(header) = Header::of(text) else { return Vec::new() };
        let mut said = vec![header.first + "."];
        if !header.shown.is_empty() {
            said.push(format!("To be shown: {}.", header.shown));
        }
        said
    }

    /// What a well-formed image says, judged obligation by obligation. Within the bounds, if any are given, runs that break it
    /// are looked for.
    pub fn content(
        &self,
        verdict: &Verdict,
        bounds: Option<Bounds>,
    ) -> Result<Option<Content>, String> {
        let (Ok(image), Ok(decoded)) = (image::read(self.bytes()), decode(self.bytes())) else {
            return Ok(None);
        };
        let judged = judged(&decoded);
        let accepted = is_accepted(&judged, verdict)?;
        let words = match (&self.input, self.subject.source()) {
            (Input::Text(text), Some(source)) => Words::of_text(text, source),
            _ => Words::of_image(&self.subject.names(&image.program), &image.program),
        };
        let open = judged.iter().filter(|judged| !judged.has_its_line());
        let open: Vec<Goal> = open.map(|judged| judged.goal).collect();
        let claims: Vec<Meeting> = decoded.claims.iter().map(|claim| claim.meeting).collect();
        let bounds = bounds.filter(|_| !accepted);
        let diagnosis = bounds.map(|b| Diagnosis::of(&decoded.program, &claims, &open, b));
        let open = self.subject.outline.as_ref().and_then(|(_, built)| built.open.first());
        let tried = open.map(|open| open.tried.clone()).unwrap_or_default();
        Ok(Some(Content { image, words, judged, accepted, diagnosis, tried }))
    }
}
