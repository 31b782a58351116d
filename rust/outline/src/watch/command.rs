//! The command `watch`: files are looked at ten times a second, and judged again when they have changed.

use super::judgement::{Effort, Judged, Judgement, Past};
use crate::command::infer::filled;
use crate::command::input::{called, mistake, mistakes, read, Input};
use crate::command::names::path;
use crate::command::options::Options;
use crate::command::{interrupt, json, print, Done, Status};
use crate::diagnosis::BOUNDS;
use crate::search::budget::TRIES;
use std::io::IsTerminal;
use std::time::{Duration, Instant, SystemTime};

/// The time between two looks at the files.
const PAUSE: Duration = Duration::from_millis(100);

/// So many lines are told of a file on a terminal; the first ones matter most.
const MOST_LINES: usize = 60;

const EFFORT: Effort = Effort { tries: TRIES, bounds: BOUNDS };

/// When a file was written and how long it is; none if it is not there.
type Stamp = Option<(SystemTime, u64)>;

/// A file with what was found out about it.
struct Watched {
    file: String,
    stamp: Stamp,
    past: Past,
    said: Said,
}

/// What is told of a file.
#[derive(Default)]
struct Said {
    status: Option<Status>,
    lines: Vec<String>,
    took: Duration,
}

pub fn run(args: &[&str]) -> Done {
    let options = Options::read(args, &["--once", "--json"])?;
    if options.files.is_empty() {
        return Err("a file is wanted; see outline --help".into());
    }
    if options.files.iter().any(|file| file == "-") {
        return Err("standard input is not saved again; a file is wanted".into());
    }
    interrupt::watch();
    let watched = |file: &String| Watched {
        file: file.clone(),
        stamp: None,
        past: Past::default(),
        said: Said::default(),
    };
    let mut all: Vec<Watched> = options.files.iter().map(watched).collect();
    loop {
        let changed = all.iter_mut().filter_map(Watched::look).count();
        if changed > 0 {
            tell(&all, &options)?;
        }
        if options.once || interrupt::is_noted() {
            return Ok(all
                .iter()
                .filter_map(|one| one.said.status)
                .max()
                .unwrap_or(Status::Unusable));
        }
        std::thread::sleep(PAUSE);
    }
}

impl Watched {
    /// Judges the file if it has changed.
    fn look(&mut self) -> Option<()> {
        let found = std::fs::metadata(path(&self.file)).ok();
        let stamp = found.and_then(|found| Some((found.modified().ok()?, found.len())));
        if self.said.status.is_some() && self.stamp == stamp {
            return None;
        }
        self.stamp = stamp;
        let begun = Instant::now();
        let (status, lines) = match read(&self.file) {
            Err(told) => (Status::Unusable, vec![told]),
            Ok(Input::Image(_)) => {
                let told = format!("{}: this is an image, not an outline", called(&self.file));
                (Status::Unusable, vec![told])
            }
            Ok(Input::Text(text)) => judged(&self.file, &text, &mut self.past),
        };
        self.said = Said { status: Some(status), lines, took: begun.elapsed() };
        Some(())
    }
}

/// What is told of a text, the first thing to look at on top.
fn judged(file: &str, text: &str, past: &mut Past) -> (Status, Vec<String>) {
    let watch = |_: usize, _: usize| !interrupt::is_noted();
    let judgement = match Judgement::of(text, past, EFFORT, &watch) {
        Judgement::Holes(source) => match filled(*source) {
            Ok(source) => Judgement::of_source(source, past, EFFORT, &watch),
            Err((lines, status)) => return (status, lines),
        },
        other => other,
    };
    match judgement {
        Judgement::Mistakes(all) => (Status::Unusable, vec![mistakes(file, text, &all)]),
        Judgement::Judged(judged) => (judged.status(), lines(file, text, &judged)),
        Judgement::Holes(_) => (Status::NotFound, vec!["its holes are not filled".into()]),
    }
}

fn lines(file: &str, text: &str, judged: &Judged) -> Vec<String> {
    let mut lines: Vec<String> =
        judged.built.failed.iter().map(|fault| mistake(file, text, fault)).collect();
    lines.extend(judged.open_ones());
    lines.push(judged.words());
    lines
}

/// What is worst stands on top, and of several files one line each follows.
fn tell(all: &[Watched], options: &Options) -> Result<(), String> {
    if options.json {
        return all.iter().try_for_each(|one| print(as_json(one)));
    }
    let mut order: Vec<&Watched> = all.iter().collect();
    order.sort_by_key(|one| one.said.status != Some(Status::Unusable));
    order.sort_by_key(|one| one.said.status == Some(Status::Accepted));
    let terminal = std::io::stdout().is_terminal();
    let mut out = String::from(if terminal { "\x1b[2J\x1b[H" } else { "" });
    for one in order {
        let lines: Vec<&str> = one.said.lines.iter().flat_map(|told| told.lines()).collect();
        let most = if terminal { MOST_LINES } else { lines.len() };
        let first = if one.said.status == Some(Status::Accepted) { "" } else { "!! " };
        out += &format!("{first}{} ({} ms)\n", one.file, one.said.took.as_millis());
        lines.iter().take(most).for_each(|line| out += &format!("{line}\n"));
        if lines.len() > most {
            out += &format!("and {} lines more: outline build tells all\n", lines.len() - most);
        }
    }
    print(out)
}

fn as_json(one: &Watched) -> String {
    let members = [("file", json::text(&one.file)), ("told", json::texts(&one.said.lines))];
    json::answer("watch", one.said.status.unwrap_or(Status::Unusable), &members)
}
