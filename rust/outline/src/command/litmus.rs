//! `litmus`: litmus tests of C, answered in herd7's form; what never happens is proved on request.

use crate::command::infer::marked;
use crate::command::input::{called, mistake, read_bytes, text_of};
use crate::command::judge::{judge, INDEPENDENT, JUDGE};
use crate::command::options::{Options, BOUND_OPTIONS};
use crate::command::output::{Kind, Target};
use crate::command::spread::spread;
use crate::command::{interrupt, json, print, words, Done, Status};
use crate::draw::{Ending, Picture};
use crate::further::{self, named, NO_VERDICT};
use crate::infer::TRIES;
use crate::litmus::answer::{answer, Answer, End, Observation};
use crate::litmus::prove::{prove, Proof};
use crate::litmus::read::read;
use crate::litmus::Litmus;
use crate::text::condition::Quantifier;
use crate::text::lex::Mistake;
use crate::text::reach::cut_by;
use crate::text::run;
use reference::explore::Bounds;
use reference::image::Program;

/// How far runs are looked at: tests are short, and a run of one has no more steps than it has points, but for loops.
pub const BOUNDS: Bounds = Bounds { steps: 100, writes: 8, starts: 1, states: 2_000_000 };

pub fn run(args: &[&str]) -> Done {
    let own = ["--prove", "--further", "--runs", "--tries", "-o", "--svg", "--json"];
    let options = Options::read(args, &[&BOUND_OPTIONS[..], &own].concat())?;
    if options.files.is_empty() {
        return Err("a litmus test is wanted; see outline --help".into());
    }
    let targets = Targets::of(&options)?;
    interrupt::watch();
    let cores = std::thread::available_parallelism().map_or(1, |n| n.get());
    let told = spread(&options.files, cores, |file| one(&options, &targets, file), |_| {});
    print(told.iter().map(|(text, _)| text.as_str()).collect::<String>())?;
    Ok(told.iter().map(|(_, status)| *status).max().unwrap_or(Status::Unusable))
}

/// What is written beside the answer.
struct Targets {
    outline: Option<Target>,
    drawing: Option<Target>,
}

impl Targets {
    fn of(options: &Options) -> Result<Targets, String> {
        let inputs: Vec<&str> = options.files.iter().map(String::as_str).collect();
        let place = |name: &Option<String>, kind: Kind| {
            name.as_ref().map(|name| Target::of(name, kind, &inputs)).transpose()
        };
        let (outline, drawing) =
            (place(&options.target, Kind::Outline)?, place(&options.svg, Kind::Drawing)?);
        if (outline.is_some() || drawing.is_some()) && options.files.len() > 1 {
            return Err("one test is wanted where a file is written".into());
        }
        if options.further && !options.prove {
            return Err("`--further` goes with `--prove`".into());
        }
        if outline.is_some() && !options.prove {
            return Err("`-o OUTLINE` goes with `--prove`".into());
        }
        Ok(Targets { outline, drawing })
    }
}

/// What is told of a file, and its status; whatever happens with one, the others are answered.
fn one(options: &Options, targets: &Targets, file: &str) -> (String, Status) {
    let done = std::panic::catch_unwind(|| told(options, targets, file));
    let done = done
        .unwrap_or_else(|_| Err("mistake in this tool: it could not go on with this file".into()));
    match done {
        Ok(told) => told,
        Err(text) if options.json => (refused_json(file, &text), Status::Unusable),
        Err(text) => (format!("{text}\n"), Status::Unusable),
    }
}

fn refused_json(file: &str, text: &str) -> String {
    let members = [
        ("file", json::text(called(file))),
        ("error", json::text(text)),
        ("mistakes", json::mistakes(&[file], text)),
    ];
    json::answer("litmus", Status::Unusable, &members)
}

/// A test as it was read, or the message about it.
pub fn test_of(file: &str, bounds: Bounds) -> Result<Litmus, String> {
    let text = text_of(read_bytes(file)?).map_err(|fault| format!("{}{fault}", called(file)))?;
    read(&text, bounds).map_err(|refusal| {
        mistake(file, &text, &Mistake { line: refusal.at.place, text: refusal.text })
    })
}

fn told(options: &Options, targets: &Targets, file: &str) -> Result<(String, Status), String> {
    let bounds = options.bounds(BOUNDS);
    let litmus = test_of(file, bounds)?;
    let program = litmus.program();
    let found = answer(&litmus, &program, bounds);
    let proof = (options.prove && found.is_proof_wanted(&litmus)).then(|| {
        let tries = options.tries.unwrap_or(TRIES);
        prove(&litmus, bounds, options.rules(), tries, &|_, _| !interrupt::is_noted())
    });
    if let (Some(target), Some(Proof::Proved(outline, found))) = (&targets.outline, &proof) {
        match &further::used(&found.built.image)[..] {
            [] => target.write(outline.as_bytes())?,
            rules => target.write(marked(rules, outline).as_bytes())?,
        }
    }
    let drawn = targets.drawing.as_ref().zip(found.deciding(&litmus));
    if let Some((target, end)) = drawn {
        target.write(drawing(&litmus, &program, end).as_bytes())?;
    }
    let all =
        Told { options, litmus: &litmus, program: &program, found: &found, proof: proof.as_ref() };
    let status = all.status();
    let text = if options.json { all.json(file) } else { all.lines().join("\n") + "\n\n" };
    Ok((text, status))
}

/// The run that decides the condition, drawn.
fn drawing(litmus: &Litmus, program: &Program, end: &End) -> String {
    let ending = Ending::Outcome(litmus.state(&end.values));
    let picture = Picture { program, names: &litmus.names, run: &end.run, ending };
    picture.svg().written() + "\n"
}

impl Answer {
    /// Is there something that never happens, as far as was looked?
    fn is_proof_wanted(&self, litmus: &Litmus) -> bool {
        self.deciding(litmus).is_none()
    }
}

/// Everything that is told of a test.
struct Told<'a> {
    options: &'a Options,
    litmus: &'a Litmus,
    program: &'a Program,
    found: &'a Answer,
    proof: Option<&'a Proof>,
}

impl Told<'_> {
    /// 1 if a run decides the condition, 0 if none does, for which `--prove` wants a verdict, else 3.
    fn status(&self) -> Status {
        match (self.found.deciding(self.litmus), self.proof) {
            (Some(_), _) => Status::Refused,
            (None, Some(proof @ Proof::Proved(..))) if !further_rules(proof).is_empty() => {
                Status::Further
            }
            (None, Some(Proof::Proved(..))) => Status::Accepted,
            (None, Some(Proof::NotFound(_))) => Status::NotFound,
            (None, None) if self.found.cut.any() => Status::NotFound,
            (None, None) => Status::Accepted,
        }
    }

    fn lines(&self) -> Vec<String> {
        let mut lines =
            self.found.told(self.litmus, self.program, &self.litmus.names, self.options.runs);
        if let Some(first) = self.proof.and_then(|proof| beyond(self.litmus, proof)) {
            lines.insert(0, first);
        }
        lines.extend(self.proof.map(proof_told));
        lines
    }

    fn json(&self, file: &str) -> String {
        let (litmus, found) = (self.litmus, self.found);
        let kind = match litmus.condition.quantifier {
            Quantifier::Exists => "exists",
            Quantifier::NotExists => "~exists",
            Quantifier::Forall => "forall",
        };
        let (positive, negative) = found.counts();
        let observation = found.observation().map(Observation::word);
        let cut = cut_by(&found.cut, &found.bounds).into_iter();
        let members = [
            ("file", json::text(called(file))),
            ("name", json::text(&litmus.name)),
            ("kind", json::text(kind)),
            ("condition", json::text(&litmus.told)),
            ("holds", found.is_so(litmus).map_or("null".into(), |so| so.to_string())),
            ("observation", observation.map_or("null".into(), json::text)),
            ("positive", positive.to_string()),
            ("negative", negative.to_string()),
            ("states", found.states.to_string()),
            ("cut", json::list(cut.map(|(name, _)| json::text(name)))),
            ("ends", json::list(found.ends.iter().map(|end| self.end_json(end)))),
            ("proof", self.proof.map_or("null".into(), proof_json)),
            ("told", json::texts(&self.lines())),
        ];
        json::answer("litmus", self.status(), &members)
    }

    fn end_json(&self, end: &End) -> String {
        let values = self.litmus.shown.iter().zip(&end.values);
        let value = |(shown, value): (&crate::litmus::Shown, &u8)| {
            json::object(&[("name", json::text(&shown.name())), ("value", value.to_string())])
        };
        let lines =
            self.options.runs.then(|| run::lines(self.program, &self.litmus.names, &end.run));
        json::object(&[
            ("values", json::list(values.map(value))),
            ("meets", end.is_met.to_string()),
            ("run", lines.map_or("null".into(), |lines| json::texts(&lines))),
        ])
    }
}

/// The further rules that a proof goes by.
fn further_rules(proof: &Proof) -> Vec<u8> {
    match proof {
        Proof::Proved(_, found) => further::used(&found.built.image),
        Proof::NotFound(_) => Vec::new(),
    }
}

/// The first line where the proof is no verdict.
fn beyond(litmus: &Litmus, proof: &Proof) -> Option<String> {
    let rules = further_rules(proof);
    let told = format!("{NO_VERDICT}: {} is proved with further {}", litmus.name, named(&rules));
    (!rules.is_empty()).then_some(told)
}

/// The verdict on the outline that was found, or why there is none.
fn proof_told(proof: &Proof) -> String {
    match proof {
        Proof::Proved(..) if !further_rules(proof).is_empty() => {
            format!("Proved with further {}   ({INDEPENDENT})", named(&further_rules(proof)))
        }
        Proof::Proved(_, found) => {
            let claims = found.built.image.claims.len();
            let verdict = words::verdict(&judge(&found.bytes), Some(&found.source), claims);
            format!("Proved {verdict}   ({JUDGE})")
        }
        Proof::NotFound(why) => format!("Not proved: {why}"),
    }
}

fn proof_json(proof: &Proof) -> String {
    let rules = further_rules(proof);
    let (answer, judge) = match proof {
        Proof::Proved(..) if rules.is_empty() => ("proved", JUDGE),
        Proof::Proved(..) => ("proved with further rules", INDEPENDENT),
        Proof::NotFound(_) => ("not found", JUDGE),
    };
    let members = [
        ("answer", json::text(answer)),
        ("judge", json::text(judge)),
        ("further", json::list(rules.iter().map(u8::to_string))),
        ("told", json::text(&proof_told(proof))),
    ];
    json::object(&members)
}
