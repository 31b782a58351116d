//! `build`: an outline to an image, with the checker's own verdict on what was made.

use crate::build::{build_with, Built, Goal, Open};
use crate::command::infer::filled;
use crate::command::input::{called, mistake, mistakes, read, Input};
use crate::command::json::{self, Member};
use crate::command::judge::{judge, INDEPENDENT, JUDGE};
use crate::command::options::{Options, BOUND_OPTIONS};
use crate::command::output::Kind;
use crate::command::progress::Progress;
use crate::command::truth::Looked;
use crate::command::{complain, interrupt, print, words, Done, Status};
use crate::diagnosis::BOUNDS;
use crate::further::{self, Further};
use crate::image::to_bytes;
use crate::search::budget::TRIES;
use crate::search::kept::Kept;
use crate::text::lex::Mistake;
use crate::text::parse_source::parse_all;
use crate::text::source::Source;
use crate::text::{counted, report};
use reference::checker::{limits, Verdict};

/// Which of those that are open are told with what was tried; the others are named only.
enum Told {
    First(usize),
    At(u8, u8),
    All,
}

impl Told {
    fn of(options: &Options, source: &Source) -> Result<Told, String> {
        let Some(at) = &options.at else {
            return Ok(if options.all { Told::All } else { Told::First(3) });
        };
        let place = at.split_once(':').and_then(|(thread, point)| source.place(thread, point));
        let (thread, point) =
            place.ok_or(format!("`--at` wants THREAD:POINT of this outline, found `{at}`"))?;
        Ok(Told::At(thread, point))
    }

    /// Whether the one with this number among all that is open is told in full.
    fn in_full(&self, n: usize, goal: &Goal) -> bool {
        match *self {
            Told::First(most) => n < most,
            Told::At(thread, point) => goal.is_at((thread, point)),
            Told::All => true,
        }
    }
}

pub fn run(args: &[&str]) -> Done {
    let own = ["-o", "--partial", "--all", "--all-lines", "--at", "--further", "--json"];
    let options = Options::read(args, &[&own[..], &BOUND_OPTIONS].concat())?;
    let file = options.file()?;
    let target = match options.further {
        true => options.target_if_named(Kind::Image)?,
        false => Some(options.target(Kind::Image)?),
    };
    if options.further && (options.partial || options.all_lines) {
        return Err(
            "`--further` writes no image with open obligations or with lines that nothing needs"
                .into(),
        );
    }
    interrupt::watch();
    let text = text_of(file)?;
    let mut source = parse_all(&text).map_err(|all| mistakes(file, &text, &all))?;
    source.rules = options.rules();
    let source = match filled(source) {
        Ok(source) => source,
        Err((said, status)) => {
            let none = || "[]".to_string();
            let members = vec![
                ("file", json::text(called(file))),
                ("answer", "null".into()),
                ("goals", none()),
                ("mistakes", none()),
                ("accepted", "false".into()),
            ];
            return tell(&options, status, Texts { members, open: &said, written: &[] });
        }
    };
    let told = Told::of(&options, &source)?;
    let kept = if options.all_lines { Kept::All } else { Kept::Needed };
    let mut built = watched(&source, kept).map_err(|e| mistake(file, &text, &e))?;
    let mut beyond = None;
    if options.further && !further::used(&built.image).is_empty() {
        let found = Further::judged(built);
        beyond = Some((found.words(), json::further(&found), found.judgement.accepted));
        built = found.built;
    }
    let looked =
        (!built.open.is_empty()).then(|| Looked::at(&source, &built, options.bounds(BOUNDS)));
    let mut said =
        looked.as_ref().map_or(Vec::new(), |looked| open_ones(&source, looked, &built, &told));
    let failed: Vec<String> = built.failed.iter().map(|e| mistake(file, &text, e)).collect();
    said.extend(failed.iter().cloned());
    let mut members = members(file, &source, &built, looked.as_ref(), &failed);
    if options.further {
        let value = beyond.as_ref().map_or("null".into(), |(_, value, _)| value.clone());
        members.push(("further", value));
    }
    if let Some((words, ..)) = &beyond {
        said.insert(0, format!("{words}   ({INDEPENDENT})"));
    }
    let stays = built.untried > 0 || !built.open.is_empty() || !built.failed.is_empty();
    if stays && !options.partial {
        said.push(nothing_written(called(file), &built));
        members.push(("accepted", false.to_string()));
        let text = Texts { members, open: &said, written: &[] };
        return tell(&options, Status::Refused, text);
    }
    if let Some((words, _, accepted)) = beyond {
        // A certificate that is written out may be wrong; one that was found is not.
        if !accepted && source.certificate.is_none() {
            return Err(format!("mistake in this tool: {words}, and the checker does not say so"));
        }
        return tell_beyond(&options, members, &built, (words, accepted));
    }
    let bytes = to_bytes(&built.image).map_err(|e| format!("{}: {e}", called(file)))?;
    let verdict = judge(&bytes);
    agrees(&source, &built, &verdict)?;
    if let Some(target) = &target {
        target.write(&bytes)?;
    }
    let target = target.as_ref().map_or("nothing is written without -o", |target| target.name());
    let mut result = vec![written(target, &built, bytes.len())];
    if options.further {
        result.push("no line goes by a further rule: this is by the published rules alone".into());
    }
    if bytes.len() > limits::PROGRAM_BYTES {
        let most = limits::PROGRAM_BYTES;
        result.push(format!(
            "{target}: the library judges it; the program `verdict` reads at most {most} bytes"
        ));
    }
    let words = words::verdict(&verdict, Some(&source), built.image.claims.len());
    result.push(format!("{words}   ({JUDGE})"));
    members.extend(json::verdict(&verdict, &words, Some(&source)));
    // Asked for with --partial, an image with open obligations is what was wanted.
    let wanted = verdict.code == 0 || options.partial;
    let status = if wanted { Status::Accepted } else { Status::Refused };
    tell(&options, status, Texts { members, open: &said, written: &result })
}

/// What further rules come to where everything names its line: told as no verdict, and without an image.
fn tell_beyond(
    options: &Options,
    mut members: Vec<Member>,
    built: &Built,
    (words, accepted): (String, bool),
) -> Done {
    members.push(("accepted", false.to_string()));
    let rules = further::used(&built.image);
    let mut said = vec![format!("{words}   ({INDEPENDENT})")];
    if let Some(target) = &options.target {
        said.push(format!("{}: {}", called(target), further::not_written(&rules)));
    }
    let status = if accepted { Status::Further } else { Status::Refused };
    let text = Texts { members, open: &[], written: &said };
    tell(&Options { target: None, json: options.json, ..Options::default() }, status, text)
}

/// The text of an outline.
fn text_of(file: &str) -> Result<String, String> {
    match read(file)? {
        Input::Text(text) => Ok(text),
        Input::Image(bytes) if bytes.is_empty() => {
            Err(format!("{}: the file is empty", called(file)))
        }
        Input::Image(_) => Err(format!("{}: this is an image, not an outline", called(file))),
    }
}

/// Builds with progress on a terminal; an interrupt leaves the rest untried.
fn watched(source: &Source, kept: Kept) -> Result<Built, Mistake> {
    let progress = Progress::on_terminal();
    build_with(source, kept, TRIES, &|done, all| {
        progress.at(done, all);
        !interrupt::is_noted()
    })
}

/// Why there is no image.
fn nothing_written(file: &str, built: &Built) -> String {
    let failed = match built.failed.len() {
        0 => String::new(),
        n => format!("{n} named steps were not found, "),
    };
    let (claims, duties) = (built.open_claims(), built.image.obligations.len());
    let open = built.open.len() - claims;
    let claims = match built.image.claims.len() {
        0 => String::new(),
        all => format!(", {claims} of {all} claims"),
    };
    let untried = match built.untried {
        0 => String::new(),
        n => format!("interrupted, {n} were not tried, "),
    };
    let all = format!("{open} of {duties} obligations{claims} are open");
    format!("{file}: {untried}{failed}{all}; no image is written")
}

/// What is told: members of JSON, what stays open, and what was written.
struct Texts<'a> {
    members: Vec<Member>,
    open: &'a [String],
    written: &'a [String],
}

/// What stays open goes to standard error, what was written to standard output, unless the image goes there.
fn tell(options: &Options, status: Status, texts: Texts) -> Done {
    let to_file = options.target.as_deref() != Some("-");
    let lines = |said: &[String]| said.iter().map(|s| format!("{s}\n")).collect::<String>();
    let (mut out, mut problems) = (lines(texts.written), lines(texts.open));
    if options.json {
        let mut all = texts.members;
        all.push(("open", json::texts(texts.open)));
        all.push(("written", json::texts(texts.written)));
        (out, problems) = (json::answer("build", status, &all), String::new());
    }
    complain(problems);
    match to_file {
        true => print(out)?,
        false => complain(out),
    }
    Ok(status)
}

/// What JSON has of an outline: the answer, what stays open, and named steps that were not found.
fn members(
    file: &str,
    source: &Source,
    built: &Built,
    looked: Option<&Looked>,
    failed: &[String],
) -> Vec<Member> {
    let answer = looked.map_or("null".into(), |l| json::text(l.diagnosis.answer().key()));
    let goal = |open: &Open| {
        let text = report::open(source, open, false);
        let told = text.trim_end().trim_start_matches("open: ");
        let mut all = json::goal(Some(source), &open.goal, told);
        let finding = looked.map_or("null".into(), |looked| json::text(looked.key(&open.goal)));
        all.push(("finding", finding));
        json::object(&all)
    };
    vec![
        ("file", json::text(called(file))),
        ("answer", answer),
        ("goals", json::list(built.open.iter().map(goal))),
        ("mistakes", json::mistakes(&[file], &failed.join("\n"))),
    ]
}

/// A certificate made by search serves all but what is open, or this tool has a mistake.
fn agrees(source: &Source, built: &Built, verdict: &Verdict) -> Result<(), String> {
    let image = &built.image;
    let met = image.obligations.iter().position(|n| *n == 0).unwrap_or(image.obligations.len());
    let wanted = match image.claims.iter().any(|claim| claim.line == 0) {
        _ if met < image.obligations.len() => 20,
        true => 26,
        false => 0,
    };
    let right = (verdict.code, usize::from(verdict.count)) == (wanted, met);
    if source.certificate.is_none() && !right {
        return Err(format!("mistake in this tool: the verdict is {verdict}"));
    }
    Ok(())
}

/// What was written, in one line.
fn written(target: &str, built: &Built, bytes: usize) -> String {
    let i = &built.image;
    let claims = match i.claims.len() {
        0 => String::new(),
        n => format!("{}, ", counted(n, "claim")),
    };
    format!(
        "{target}: {bytes} bytes, {} formulas, {} lines, {} obligations, {claims}{} open",
        i.formulas.len(),
        i.lines.len(),
        i.obligations.len(),
        built.open.len()
    )
}

/// Whether the program is wrong or its proof, then what stays open, each with what the machine says of it: first what
/// is false, then what is not provable, then what was only not found.
fn open_ones(source: &Source, looked: &Looked, built: &Built, told: &Told) -> Vec<String> {
    let mut open: Vec<&Open> = built.open.iter().collect();
    open.sort_by_key(|open| looked.rank(&open.goal));
    let worded = |(n, open): (usize, &&Open)| {
        let in_full = told.in_full(n, &open.goal);
        let text = report::open(source, open, in_full);
        let (place, rest) = text.split_once('\n').expect("a line is told");
        let text = format!("{place}\n{}{rest}", looked.told(open, in_full));
        text.trim_end().to_string()
    };
    let worded = open.iter().enumerate().map(worded);
    [looked.answer()].into_iter().chain(worded).collect()
}
