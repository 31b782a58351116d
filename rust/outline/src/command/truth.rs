//! What the machine says of an outline that stays open: is the program wrong, or its proof?

use crate::build::{Built, Goal, Open};
use crate::diagnosis::{Diagnosis, Finding};
use crate::image::to_bytes;
use crate::judged::judged;
use crate::text::answer::{finding, Telling};
use crate::text::run;
use crate::text::source::Source;
use reference::checker::decode;
use reference::explore::Bounds;
use reference::image::Program;

/// An open outline, looked at.
pub struct Looked<'a> {
    source: &'a Source,
    program: Program,
    pub diagnosis: Diagnosis,
}

impl Looked<'_> {
    pub fn at<'a>(source: &'a Source, built: &Built, bounds: Bounds) -> Looked<'a> {
        let program = source.program();
        let open = without_line(source, built);
        let diagnosis = Diagnosis::of(&program, &source.meetings(), &open, bounds);
        Looked { source, program, diagnosis }
    }

    /// A source with what was found out about it before.
    pub fn again(source: &Source, diagnosis: Diagnosis) -> Looked<'_> {
        Looked { source, program: source.program(), diagnosis }
    }

    fn telling<T>(&self, tell: impl Fn(&Telling) -> T) -> T {
        let (program, names) = (&self.program, &self.source.names);
        let assertion = |t: u8, p: u8| names.assertion(program.assertion(t, p));
        tell(&Telling { program, names, assertion: &assertion })
    }

    /// The answer in its first line, then the run that matters most.
    pub fn answer(&self) -> String {
        let head = self.diagnosis.answer().head();
        let mut lines =
            vec![self.telling(|told| format!("{head}: {}", told.sentence(&self.diagnosis)))];
        if let Some(broken) = self.diagnosis.worst() {
            lines.extend(run::lines(&self.program, &self.source.names, &broken.run));
        }
        lines.join("\n")
    }

    /// False with a run, not provable, or only not found; the worst has the lowest number.
    pub fn rank(&self, goal: &Goal) -> u8 {
        self.diagnosis.of_goal(goal).map_or(u8::MAX, |checked| checked.finding.rank())
    }

    /// The word of JSON for what was found out about a goal.
    pub fn key(&self, goal: &Goal) -> &'static str {
        self.diagnosis.of_goal(goal).map_or("not-found", |checked| checked.finding.key())
    }

    /// What was found out about a goal, in full with the run or the state.
    pub fn told(&self, open: &Open, in_full: bool) -> String {
        let Some(checked) = self.diagnosis.of_goal(&open.goal) else { return String::new() };
        let mut text = format!("  {}\n", finding(checked, open.given_up));
        let lines = match &checked.finding {
            Finding::False(run) => run::lines(&self.program, &self.source.names, run),
            Finding::Unprovable(state) => self.telling(|told| told.refutation(state)),
            Finding::Unknown => Vec::new(),
        };
        if in_full {
            lines.iter().for_each(|line| text += &format!("    {line}\n"));
        }
        text
    }
}

/// The goals that have no line, or one that does not serve. Lines that the search found do serve.
fn without_line(source: &Source, built: &Built) -> Vec<Goal> {
    let image = to_bytes(&built.image).ok().and_then(|bytes| decode(&bytes).ok());
    if let Some(image) = image {
        let open = judged(&image).into_iter().filter(|judged| !judged.has_its_line());
        return open.map(|judged| judged.goal).collect();
    }
    let claims = built.image.claims.iter().map(|claim| &claim.line);
    let lines = built.image.obligations.iter().chain(claims);
    let open = Goal::all(source).into_iter().zip(lines).filter(|(_, line)| **line == 0);
    open.map(|(goal, _)| goal).collect()
}
