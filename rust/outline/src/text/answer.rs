//! "Is my program wrong, or my proof?", answered in words.

use crate::diagnosis::{Answer, Broken, Checked, Diagnosis, Finding, Reach, Wrong};
use crate::refuted::Refutation;
use crate::text::counted;
use crate::text::print::Names;
use crate::text::run;
use reference::explore::Run;
use reference::image::Program;
use reference::machine::Write;

/// A program, with the words for its points' assertions.
pub struct Telling<'a> {
    pub program: &'a Program,
    pub names: &'a Names,
    /// The assertion at a point of a thread.
    pub assertion: &'a dyn Fn(u8, u8) -> String,
}

impl Telling<'_> {
    /// The answer in one line, without its head.
    pub fn sentence(&self, diagnosis: &Diagnosis) -> String {
        let aims = match diagnosis.has_claims {
            true => "a claim or a last assertion",
            false => "a last assertion",
        };
        let Some(broken) = diagnosis.worst() else {
            return unbroken(&diagnosis.reach(), "an assertion or a claim");
        };
        let told = self.broken(&broken);
        match broken.is_of_program() {
            true => told,
            false => format!("{told}; {}", unbroken(&diagnosis.program_reach, aims)),
        }
    }

    /// A run and what it breaks.
    pub fn broken(&self, broken: &Broken) -> String {
        let run = match broken.run.steps.len() {
            0 => "the start breaks".into(),
            steps => format!("a run of {} breaks", counted(steps, "step")),
        };
        let Some(thread) = broken.asserting() else {
            let Wrong::Claim(meeting) = broken.what else { return run };
            return format!("{run} a claim: never {}", self.names.both(&meeting));
        };
        let point = broken.end(self.program).points[usize::from(thread) - 1];
        let which = match broken.what {
            Wrong::Last { .. } => format!("{}'s last assertion", self.names.thread(thread)),
            _ => format!("the assertion of {}", self.names.at(thread, point)),
        };
        format!("{run} {which}: {}", (self.assertion)(thread, point))
    }

    /// A state that a goal's own assertions allow, and the step in it behind which the goal is false.
    pub fn refutation(&self, refutation: &Refutation) -> Vec<String> {
        let (state, names) = (&refutation.state, self.names);
        let mut lines = Vec::new();
        if !names.registers.is_empty() {
            lines.push(format!("     {}", run::registers(names, state)));
        }
        for (x, row) in (1..).zip(&state.rows) {
            let row: Vec<String> = row.iter().map(marked).collect();
            lines.push(format!("     {} was written {}", names.word(x), row.join(", ")));
        }
        for (t, view) in (1..).zip(&state.views) {
            // Of a word with one write there is no choice.
            let several = (1..).zip(&state.rows).filter(|(_, row)| row.len() > 1);
            let at = several.map(|(x, _)| format!("write {} of {}", view.at(x) + 1, names.word(x)));
            let at: Vec<String> = at.collect();
            if !at.is_empty() {
                lines.push(format!("     {} is at {}", names.thread(t), at.join(", ")));
            }
        }
        if let Some(step) = refutation.step {
            let run = Run { start: state.clone(), steps: vec![step] };
            let (steps, _) = run::steps(self.program, names, &run);
            lines.extend(steps.into_iter().filter(|line| line.starts_with("  1. ")));
        }
        lines
    }
}

/// A write's value with its marks.
fn marked(write: &Write) -> String {
    match (write.releasing, write.covered) {
        (false, false) => write.value.to_string(),
        (true, false) => format!("{} (releasing)", write.value),
        (false, true) => format!("{} (covered)", write.value),
        (true, true) => format!("{} (releasing, covered)", write.value),
    }
}

/// That no run breaks something, or that none was seen to.
pub fn unbroken(reach: &Reach, what: &str) -> String {
    match reach.all {
        true => format!("no run breaks {what} ({})", reach.words()),
        false => format!("no run was seen that breaks {what} ({})", reach.words()),
    }
}

/// What was found out about an open goal, in one line.
pub fn finding(checked: &Checked, given_up: Option<u64>) -> String {
    let unbroken = unbroken(&checked.reach, "it");
    match (&checked.finding, given_up) {
        (Finding::False(run), _) if run.steps.is_empty() => {
            "FALSE        the start breaks it".into()
        }
        (Finding::False(run), _) => {
            format!("FALSE        a run of {} breaks it", counted(run.steps.len(), "step"))
        }
        (Finding::Unprovable(_), _) => {
            format!("not provable the left side allows a state that breaks it; {unbroken}")
        }
        (Finding::Unknown, Some(tries)) => {
            format!("not found    given up after {tries} tries; {unbroken}")
        }
        (Finding::Unknown, None) => format!("not found    by the search; {unbroken}"),
    }
}

/// The answer at the front of a sentence.
pub fn opening(answer: Answer) -> &'static str {
    match answer {
        Answer::ProgramWrong => "The program is wrong:",
        Answer::OutlineFalse => "The outline is false:",
        Answer::NotProved => "It is not proved:",
    }
}
