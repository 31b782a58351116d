//! All that is said of a text: its mistakes, or what stays open of it with what the machine says, or the verdict.

use super::warm::{build_again, Memory};
use crate::build::{Built, Goal, Watch};
use crate::command::judge::{judge, JUDGE};
use crate::command::truth::Looked;
use crate::command::{words, Status};
use crate::diagnosis::Diagnosis;
use crate::image::to_bytes;
use crate::text::lex::Mistake;
use crate::text::parse_source::parse_all;
use crate::text::report;
use crate::text::source::Source;
use reference::checker::Verdict;
use reference::explore::Bounds;
use reference::image::{Meeting, Program};

/// How much is tried and looked at.
#[derive(Debug, Clone, Copy)]
pub struct Effort {
    /// For each obligation and each named step.
    pub tries: u64,
    pub bounds: Bounds,
}

/// What a text comes to.
pub enum Judgement {
    /// It cannot be read.
    Mistakes(Vec<Mistake>),
    /// It has points whose assertions are to be found.
    Holes(Box<Source>),
    Judged(Box<Judged>),
}

/// An outline that was built.
pub struct Judged {
    pub source: Source,
    pub built: Built,
    pub bytes: Vec<u8>,
    pub verdict: Verdict,
    /// What the machine says, if something stays open.
    pub diagnosis: Option<Diagnosis>,
}

/// What a diagnosis is about: the program, its claims, and what is left to show.
type Asked = (Program, Vec<Meeting>, Vec<Goal>);

/// What the machine said the last time, and of what.
#[derive(Default)]
pub struct Past {
    pub memory: Memory,
    diagnosed: Option<(Asked, Diagnosis)>,
}

impl Judgement {
    /// Reads, builds, judges, and looks at runs if something stays open.
    pub fn of(text: &str, past: &mut Past, effort: Effort, watch: Watch) -> Judgement {
        let source = match parse_all(text) {
            Ok(source) => source,
            Err(mistakes) => return Judgement::Mistakes(mistakes),
        };
        if source.has_holes() {
            return Judgement::Holes(Box::new(source));
        }
        Judgement::of_source(source, past, effort, watch)
    }

    /// The same of a source without holes.
    pub fn of_source(source: Source, past: &mut Past, effort: Effort, watch: Watch) -> Judgement {
        let built = match build_again(&source, &mut past.memory, effort.tries, watch) {
            Ok(built) => built,
            Err(mistake) => return Judgement::Mistakes(vec![mistake]),
        };
        let bytes = match to_bytes(&built.image) {
            Ok(bytes) => bytes,
            Err(text) => return Judgement::Mistakes(vec![Mistake { line: 1.into(), text }]),
        };
        let verdict = judge(&bytes);
        let stopped = built.untried > 0;
        let diagnosis = (!built.open.is_empty() && !stopped)
            .then(|| past.diagnosis(&source, &built, effort.bounds));
        Judgement::Judged(Box::new(Judged { source, built, bytes, verdict, diagnosis }))
    }
}

impl Past {
    /// What the machine says; the same question is not asked twice.
    fn diagnosis(&mut self, source: &Source, built: &Built, bounds: Bounds) -> Diagnosis {
        let open: Vec<Goal> = built.open.iter().map(|open| open.goal).collect();
        let asked = (source.program(), source.meetings(), open);
        match &self.diagnosed {
            Some((before, diagnosis)) if *before == asked => diagnosis.clone(),
            _ => {
                let diagnosis = Looked::at(source, built, bounds).diagnosis;
                self.diagnosed = Some((asked, diagnosis.clone()));
                diagnosis
            }
        }
    }
}

impl Judged {
    /// Whether nothing is left to do.
    pub fn is_accepted(&self) -> bool {
        self.verdict.code == 0 && self.built.failed.is_empty()
    }

    pub fn status(&self) -> Status {
        if self.is_accepted() {
            Status::Accepted
        } else {
            Status::Refused
        }
    }

    /// The verdict with its judge.
    pub fn words(&self) -> String {
        let claims = self.built.image.claims.len();
        format!("{}   ({JUDGE})", words::verdict(&self.verdict, Some(&self.source), claims))
    }

    /// Whether the program is wrong or its proof, then what stays open, the worst first; the first one in full.
    pub fn open_ones(&self) -> Vec<String> {
        let Some(diagnosis) = &self.diagnosis else { return Vec::new() };
        let looked = Looked::again(&self.source, diagnosis.clone());
        let mut open: Vec<_> = self.built.open.iter().collect();
        open.sort_by_key(|open| looked.rank(&open.goal));
        let told = |(n, open): (usize, &&crate::build::Open)| {
            let text = report::open(&self.source, open, n == 0);
            let (place, rest) = text.split_once('\n').expect("a line is told");
            format!("{place}\n{}{rest}", looked.told(open, n == 0)).trim_end().to_string()
        };
        [looked.answer()].into_iter().chain(open.iter().enumerate().map(told)).collect()
    }
}
