//! Words of the command line.

use crate::command::output::{Kind, Target};
use reference::checker::rules::Rules;
use reference::explore::Bounds;

/// With so many states, and the room that the explorer has for them, memory stays under a gigabyte.
const MOST_STATES: usize = 8_000_000;

/// How far runs are looked at.
pub const BOUND_OPTIONS: [&str; 4] = ["--steps", "--writes", "--starts", "--states"];

/// Everything that may be asked for; each command says which it takes.
#[derive(Debug, Default)]
pub struct Options {
    pub files: Vec<String>,
    pub target: Option<String>,
    pub partial: bool,
    pub all: bool,
    pub all_lines: bool,
    pub json: bool,
    pub claims: bool,
    pub check: bool,
    pub once: bool,
    pub at: Option<String>,
    pub outcome: Option<String>,
    pub outcomes: bool,
    pub runs: bool,
    pub prove: bool,
    pub further: bool,
    pub litmus: bool,
    pub threads: Option<String>,
    pub cpp: Option<String>,
    pub svg: Option<String>,
    pub steps: Option<usize>,
    pub writes: Option<usize>,
    pub starts: Option<usize>,
    pub states: Option<usize>,
    pub tariff: Option<String>,
    pub billed: Option<u32>,
    pub given: Option<String>,
    pub entries: Option<usize>,
    pub table: Option<String>,
    pub image: Option<String>,
    pub date: Option<String>,
    pub map: Vec<String>,
    pub tries: Option<u64>,
    pub set: bool,
}

impl Options {
    /// Reads the words behind a command, of which only the options listed are allowed.
    pub fn read(words: &[&str], allowed: &[&str]) -> Result<Options, String> {
        let mut options = Options::default();
        let mut rest = words.iter();
        let mut seen: Vec<&str> = Vec::new();
        while let Some(&word) = rest.next() {
            if word == "--" {
                options.files.extend(rest.map(|file| file.to_string()));
                break;
            }
            if word != "-" && word.starts_with('-') {
                is_free(word, allowed, &seen)?;
                seen.push(word);
            }
            let mut value = || rest.next().copied().ok_or(format!("`{word}` wants a value"));
            match word {
                "-o" => options.target = Some(value()?.into()),
                "--at" => options.at = Some(value()?.into()),
                "--outcome" => options.outcome = Some(value()?.into()),
                "--steps" => options.steps = Some(number(word, value()?, 10_000)?),
                "--writes" => options.writes = Some(number(word, value()?, 200)?),
                "--starts" => options.starts = Some(number(word, value()?, 1 << 20)?),
                "--states" => options.states = Some(number(word, value()?, MOST_STATES)?),
                "--given" => options.given = Some(value()?.into()),
                "--entries" => options.entries = Some(number(word, value()?, 64)?),
                "--tariff" => options.tariff = Some(value()?.into()),
                "--table" => options.table = Some(value()?.into()),
                "--image" => options.image = Some(value()?.into()),
                "--date" => options.date = Some(value()?.into()),
                "--tries" => options.tries = Some(number(word, value()?, 1 << 40)? as u64),
                "--map" => options.map.push(value()?.into()),
                "--billed" => {
                    options.billed = Some(number(word, value()?, u32::MAX as usize)? as u32);
                }
                "--partial" => options.partial = true,
                "--all" => options.all = true,
                "--all-lines" => options.all_lines = true,
                "--json" => options.json = true,
                "--claims" => options.claims = true,
                "--outcomes" => options.outcomes = true,
                "--runs" => options.runs = true,
                "--prove" => options.prove = true,
                "--further" => options.further = true,
                "--litmus" => options.litmus = true,
                "--threads" => options.threads = Some(value()?.into()),
                "--cpp" => options.cpp = Some(value()?.into()),
                "--svg" => options.svg = Some(value()?.into()),
                "--check" => options.check = true,
                "--once" => options.once = true,
                "--set" => options.set = true,
                file => options.files.push(file.into()),
            }
        }
        Ok(options)
    }

    /// The one file that the command is about.
    pub fn file(&self) -> Result<&str, String> {
        match &self.files[..] {
            [file] => Ok(file),
            [] => Err("a file is wanted; see outline --help".into()),
            _ => Err("one file is wanted, not several; see outline --help".into()),
        }
    }

    /// The place behind `-o`, which has to be there; none of the files read is written over.
    pub fn target(&self, kind: Kind) -> Result<Target, String> {
        let Some(target) = &self.target else {
            return Err("`-o FILE` is wanted; see outline --help".into());
        };
        let inputs: Vec<&str> = self.files.iter().map(String::as_str).collect();
        Target::of(target, kind, &inputs)
    }

    /// The place behind `-o`, if it is there.
    pub fn target_if_named(&self, kind: Kind) -> Result<Option<Target>, String> {
        self.target.as_ref().map(|_| self.target(kind)).transpose()
    }

    /// The rules that are asked for.
    pub fn rules(&self) -> Rules {
        match self.further {
            true => Rules::WithFurther,
            false => Rules::Published,
        }
    }

    /// The place behind `--image`, if it is asked for: a file of its own, no input and not what `-o` names.
    pub fn image_target(&self, beside: &Target) -> Result<Option<Target>, String> {
        let Some(image) = &self.image else { return Ok(None) };
        let inputs: Vec<&str> = self.files.iter().map(String::as_str).collect();
        let target = Target::of(image, Kind::Image, &inputs)?;
        match image == beside.name() || target.is(beside) {
            true => Err("`--image` wants a file of its own".into()),
            false => Ok(Some(target)),
        }
    }

    /// How far runs are looked at: as asked, and where nothing is asked, so far.
    pub fn bounds(&self, otherwise: Bounds) -> Bounds {
        Bounds {
            steps: self.steps.unwrap_or(otherwise.steps),
            writes: self.writes.unwrap_or(otherwise.writes),
            starts: self.starts.unwrap_or(otherwise.starts),
            states: self.states.unwrap_or(otherwise.states),
        }
    }
}

/// An option that the command takes, and that was not given already.
fn is_free(word: &str, allowed: &[&str], seen: &[&str]) -> Result<(), String> {
    if !allowed.contains(&word) {
        return Err(format!("`{word}` is no option here; see outline --help"));
    }
    match seen.contains(&word) && word != "--map" {
        true => Err(format!("`{word}` is given twice; once is enough")),
        false => Ok(()),
    }
}

fn number(option: &str, text: &str, most: usize) -> Result<usize, String> {
    let found = text.parse().ok().filter(|n| *n <= most);
    found.ok_or(format!("`{option}` wants a number up to {most}, found `{text}`"))
}
