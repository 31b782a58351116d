//! What is told at its lines: mistakes, whether the program is wrong or its proof, and all that stays open.

use super::document::Document;
use super::places::Span;
use super::position::Range;
use crate::build::{Goal, Open};
use crate::command::json::{list, object, quoted};
use crate::command::truth::Looked;
use crate::diagnosis::{Finding, Wrong};
use crate::infer::Breach;
use crate::text::lex::Mistake;
use crate::text::run;
use crate::text::source::Source;
use crate::text::{counted, report};
use crate::watch::judgement::{Judged, Judgement};
use reference::checker::obligations::Duty;
use reference::explore::Run;
use reference::image::Meeting;
use reference::machine::take;

/// So many are told of a text; whoever has mended them sees the others.
const MOST: usize = 100;

#[derive(Debug, Clone, Copy)]
enum Severity {
    Error = 1,
    Warning = 2,
    Information = 3,
    Hint = 4,
}

struct Diagnostic {
    range: Range,
    severity: Severity,
    code: &'static str,
    message: String,
    /// Places with what is said of them.
    related: Vec<(Range, String)>,
}

/// All diagnostics of a document, as a list in JSON.
pub fn diagnostics(document: &Document) -> String {
    let teller = Teller { document, lines: document.lines() };
    let all = match &document.judgement {
        None => Vec::new(),
        Some(Judgement::Mistakes(mistakes)) => teller.mistakes(mistakes),
        Some(Judgement::Holes(source)) => teller.holes(source),
        Some(Judgement::Judged(judged)) => teller.judged(judged),
    };
    list(all.iter().take(MOST).map(|one| one.json(&document.uri)))
}

impl Diagnostic {
    fn json(&self, uri: &str) -> String {
        let related = self.related.iter().map(|(range, message)| {
            let location = object(&[("uri", quoted(uri)), ("range", range.json())]);
            object(&[("location", location), ("message", quoted(message))])
        });
        object(&[
            ("range", self.range.json()),
            ("severity", (self.severity as u8).to_string()),
            ("code", quoted(self.code)),
            ("source", quoted("outline")),
            ("message", quoted(&self.message)),
            ("relatedInformation", list(related)),
        ])
    }
}

struct Teller<'a> {
    document: &'a Document,
    lines: Vec<&'a str>,
}

impl Teller<'_> {
    fn range(&self, span: Span) -> Range {
        Range::of_tokens(&self.lines, &self.document.list, span.0, span.1)
    }

    fn point(&self, thread: u8, point: u8) -> Range {
        let spans = self.document.places.of_point(thread, point);
        self.range(spans.map_or((0, 0), |spans| spans.point))
    }

    /// The instruction at a point; of a last point, the point.
    fn instruction(&self, thread: u8, point: u8) -> Range {
        let spans = self.document.places.of_point(thread, point);
        self.range(spans.map_or((0, 0), |spans| spans.instruction.unwrap_or(spans.point)))
    }

    fn claim(&self, source: &Source, meeting: &Meeting) -> Range {
        let at = source.claims.iter().position(|claim| claim.meeting == *meeting);
        self.range(at.and_then(|at| self.document.places.claims.get(at).copied()).unwrap_or((0, 0)))
    }

    fn mistakes(&self, mistakes: &[Mistake]) -> Vec<Diagnostic> {
        let told = |mistake: &Mistake| Diagnostic {
            range: Range::from_place(&self.lines, &self.document.list, mistake.line),
            severity: Severity::Error,
            code: "mistake",
            message: mistake.text.clone(),
            related: Vec::new(),
        };
        mistakes.iter().map(told).collect()
    }

    /// A run that breaks what is wished, and each hole.
    fn holes(&self, source: &Source) -> Vec<Diagnostic> {
        let broken = self.document.broken.as_ref().map(|(run, breach)| {
            let (range, what) = match breach {
                Breach::Claim(meeting) => (self.claim(source, meeting), "this claim"),
                Breach::Assertion((thread, point)) => {
                    (self.point(*thread, *point), "this assertion")
                }
            };
            let steps = counted(run.steps.len(), "step");
            Diagnostic {
                range,
                severity: Severity::Error,
                code: "program-wrong",
                message: format!(
                    "PROGRAM WRONG: a run of {steps} breaks {what}, whatever the holes say"
                ),
                related: self.run(source, run),
            }
        });
        let points = (1..)
            .zip(&source.points)
            .flat_map(|(t, all)| (0..).zip(all).map(move |(p, point)| (t, p, point)));
        let holes = points.filter(|(_, _, point)| point.hole).map(|(t, p, _)| Diagnostic {
            range: self.point(t, p),
            severity: Severity::Hint,
            code: "hole",
            message: "the assertion here is to be found: the code action `infer` looks for it"
                .into(),
            related: Vec::new(),
        });
        broken.into_iter().chain(holes).collect()
    }

    /// Each step of a run at its instruction, then what the registers hold.
    fn run(&self, source: &Source, found: &Run) -> Vec<(Range, String)> {
        let program = source.program();
        let (mut told, _) = run::steps(&program, &source.names, found);
        if program.header.marks.contains(&0) {
            told.remove(0);
        }
        let mut state = found.start.clone();
        let mut related = Vec::new();
        for (step, line) in found.steps.iter().zip(&told) {
            let point = state.points[usize::from(step.thread) - 1];
            related.push((self.instruction(step.thread, point), line.trim().to_string()));
            state = take(&program.threads, &state, *step).unwrap_or(state);
        }
        let then = told.get(found.steps.len()).map(|line| line.trim().to_string());
        let last = related.last().map(|(range, _)| *range);
        related.extend(last.zip(then));
        related
    }

    fn judged(&self, judged: &Judged) -> Vec<Diagnostic> {
        let mut all = Vec::new();
        if let Some(diagnosis) = &judged.diagnosis {
            let looked = Looked::again(&judged.source, diagnosis.clone());
            all.push(self.answer(judged, &looked));
            let mut open: Vec<&Open> = judged.built.open.iter().collect();
            open.sort_by_key(|open| looked.rank(&open.goal));
            all.extend(open.iter().map(|open| self.open(judged, &looked, open)));
        }
        all.extend(self.mistakes(&judged.built.failed));
        let is_told = !all.is_empty() || judged.built.untried > 0;
        if !judged.is_accepted() && !is_told {
            // A certificate that is written out may have lines that do not serve.
            let (thread, point) = (judged.verdict.thread as u8, judged.verdict.point as u8);
            all.push(Diagnostic {
                range: self.point(thread, point),
                severity: Severity::Error,
                code: "refused",
                message: judged.words(),
                related: Vec::new(),
            });
        }
        all
    }

    /// Whether the program is wrong or its proof, as `build` says it first, with the run that matters most.
    fn answer(&self, judged: &Judged, looked: &Looked) -> Diagnostic {
        let (source, worst) = (&judged.source, looked.diagnosis.worst());
        let last = |thread: u8| source.points[usize::from(thread) - 1].len() as u8 - 1;
        let range = match worst.as_ref().map(|broken| broken.what) {
            Some(Wrong::Claim(meeting)) => self.claim(source, &meeting),
            Some(Wrong::Last { thread }) => self.point(thread, last(thread)),
            Some(Wrong::Duty(duty)) => self.goal(source, &Goal::Duty(duty)),
            None => self.goal(source, &judged.built.open[0].goal),
        };
        let answer = looked.diagnosis.answer();
        let proved = worst.is_none();
        Diagnostic {
            range,
            severity: if proved { Severity::Information } else { Severity::Error },
            code: answer.key(),
            message: looked.answer().lines().next().unwrap_or_default().to_string(),
            related: worst.map_or(Vec::new(), |broken| self.run(source, &broken.run)),
        }
    }

    /// Where an obligation or a claim stands.
    fn goal(&self, source: &Source, goal: &Goal) -> Range {
        match *goal {
            Goal::Duty(Duty::Start { thread }) => self.point(thread, 0),
            Goal::Duty(Duty::Next { thread, point } | Duty::Taken { thread, point }) => {
                self.instruction(thread, point)
            }
            Goal::Duty(Duty::Kept { thread, point, .. }) => self.point(thread, point),
            Goal::Claim(meeting) => self.claim(source, &meeting),
        }
    }

    fn open(&self, judged: &Judged, looked: &Looked, open: &Open) -> Diagnostic {
        let source = &judged.source;
        let text = report::open(source, open, true);
        let (place, rest) = text.split_once('\n').unwrap_or((&text, ""));
        let message = format!("{place}\n{}{rest}", looked.told(open, false));
        let mut related = Vec::new();
        if let Goal::Duty(Duty::Kept { actor, action, .. }) = open.goal {
            related.push((self.instruction(actor, action), "not kept by this instruction".into()));
        }
        let finding = looked.diagnosis.of_goal(&open.goal).map(|checked| &checked.finding);
        let severity = match finding {
            Some(Finding::False(run)) => {
                related.extend(self.run(source, run));
                Severity::Error
            }
            Some(Finding::Unprovable(_)) => Severity::Warning,
            _ => Severity::Information,
        };
        let (range, code) = (self.goal(source, &open.goal), looked.key(&open.goal));
        Diagnostic { range, severity, code, message: message.trim_end().into(), related }
    }
}
