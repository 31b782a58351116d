//! `explore`: every run up to a bound; is an assertion or a claim false in one, can an outcome happen?

use crate::command::finding::Finding;
use crate::command::input::{called, mistakes, read, Input};
use crate::command::options::{Options, BOUND_OPTIONS};
use crate::command::{json, outcomes, print, Done};
use crate::text::condition::{parse_condition, Condition};
use crate::text::parse_source::parse_all;
use crate::text::print::Names;
use crate::text::reach::{all, cut_by, not_all};
use crate::text::{counted, run};
use reference::checker::decode;
use reference::explore::truth::violation;
use reference::explore::{self, explore, find, has_ended};
use reference::explore::{Bounds, Break, Cut, Fault, Found, Outcome, Run, Sought};
use reference::formula::Assertion;
use reference::image::{Meeting, Program};
use reference::machine::{take, State, View};

pub fn run(args: &[&str]) -> Done {
    let questions = ["--claims", "--outcome", "--outcomes", "--runs", "--json"];
    let options = Options::read(args, &[&BOUND_OPTIONS[..], &questions].concat())?;
    let file = options.file()?;
    let asked = [
        (options.claims, "`--claims`"),
        (options.outcome.is_some(), "`--outcome`"),
        (options.outcomes, "`--outcomes`"),
    ];
    let asked: Vec<&str> =
        asked.iter().filter(|(asked, _)| *asked).map(|(_, name)| *name).collect();
    if asked.len() > 1 {
        return Err(format!("{} are {} questions: ask one", asked.join(" and "), number(&asked)));
    }
    if options.runs && !options.outcomes {
        return Err("`--runs` goes with `--outcomes`".into());
    }
    let subject = Subject::of(file)?;
    let bounds = options.bounds(Bounds::DEFAULT);
    let answer = match &options.outcome {
        Some(outcome) => can_happen(&subject, bounds, outcome)?,
        None if options.outcomes => all_outcomes(&subject, bounds, options.runs),
        None if options.claims && subject.claims.is_empty() => {
            return Err(format!("{}: it makes no claim", called(file)));
        }
        None if options.claims => claims_alone(&subject, bounds),
        None => outline(&subject, bounds),
    };
    if options.json {
        print(answer.json(file, &bounds))?;
    } else {
        print(answer.said.join("\n") + "\n")?;
    }
    Ok(answer.finding.status())
}

fn number(questions: &[&str]) -> &'static str {
    if questions.len() == 2 {
        "two"
    } else {
        "three"
    }
}

/// What is answered, in a word and in lines, and how many states were looked at.
struct Answer {
    finding: Finding,
    word: &'static str,
    said: Vec<String>,
    states: usize,
    cut: Cut,
    /// The final states as JSON, where they are asked for.
    outcomes: Option<String>,
}

impl Answer {
    fn json(&self, file: &str, bounds: &Bounds) -> String {
        let cut = cut_by(&self.cut, bounds).into_iter();
        let mut members = vec![
            ("file", json::text(called(file))),
            ("answer", json::text(self.word)),
            ("states", self.states.to_string()),
            ("cut", json::list(cut.map(|(name, _)| json::text(name)))),
        ];
        members.extend(self.outcomes.clone().map(|all| ("outcomes", all)));
        members.push(("told", json::texts(&self.said)));
        json::answer("explore", self.finding.status(), &members)
    }
}

/// What is run: a program with its outline and claims. No certificate is needed for it.
pub struct Subject {
    pub program: Program,
    claims: Vec<Meeting>,
    pub names: Names,
}

impl Subject {
    pub fn of(file: &str) -> Result<Subject, String> {
        match read(file)? {
            Input::Text(text) => {
                let source = parse_all(&text).map_err(|all| mistakes(file, &text, &all))?;
                let (program, claims) = (source.program(), source.meetings());
                Ok(Subject { program, claims, names: source.names })
            }
            Input::Image(bytes) => {
                let image = decode(&bytes);
                let image = image.map_err(|_| format!("{}: no program to run", called(file)))?;
                let claims = image.claims.iter().map(|claim| claim.meeting).collect();
                let names = Names::of(&image.program);
                Ok(Subject { program: image.program, claims, names })
            }
        }
    }

    fn run(&self, run: &Run) -> Vec<String> {
        run::lines(&self.program, &self.names, run)
    }

    fn end_of(&self, run: &Run) -> State {
        run.steps.iter().fold(run.start.clone(), |state, step| {
            take(&self.program.threads, &state, *step).expect("a step of the run")
        })
    }

    /// The claims, behind a word.
    fn claimed(&self, word: &str) -> Vec<String> {
        self.claims.iter().map(|meeting| format!("{word}: {}", self.names.both(meeting))).collect()
    }

    /// What is said of assertions and claims: a run, or else that there is none, as far as was looked.
    fn truth(&self, run: Option<Vec<String>>, states: usize, cut: Cut, bounds: &Bounds) -> Answer {
        let finding = Finding::of(run.is_some(), &cut);
        let said = run.unwrap_or_else(|| match finding {
            Finding::NotFound => {
                let first =
                    format!("not found: nothing is false in {}", not_all(states, &cut, bounds));
                [vec![first], self.claimed("not met in these")].concat()
            }
            _ => [vec![format!("holds in {}", all(states))], self.claimed("never")].concat(),
        });
        Answer { finding, word: finding.of_truth(), said, states, cut, outcomes: None }
    }
}

/// Is an assertion or a claim false in a run?
fn outline(subject: &Subject, bounds: Bounds) -> Answer {
    let Found { states, cut, outcome } = explore(&subject.program, &subject.claims, bounds);
    let run = match outcome {
        Outcome::Holds { .. } => None,
        Outcome::Breaks(Break { start, run, fault }) => {
            Some(breaking(subject, &Run { start, steps: run }, fault))
        }
    };
    subject.truth(run, states, cut, &bounds)
}

/// A run that breaks the outline.
fn breaking(subject: &Subject, run: &Run, fault: Fault) -> Vec<String> {
    match fault {
        Fault::Assertion { thread } => {
            let end = false_there(subject, &subject.end_of(run), thread);
            broken(subject, run, "an assertion", end)
        }
        Fault::Claim(meeting) => broken_claim(subject, run, &meeting),
    }
}

/// Is a claim false in a run, whatever the assertions say?
fn claims_alone(subject: &Subject, bounds: Bounds) -> Answer {
    let in_one = |state: &State| subject.claims.iter().find(|meeting| state.has_meeting(meeting));
    let sought = find(&subject.program, bounds, &|state| in_one(state).is_some());
    let run = sought.runs[0].as_ref().map(|run| {
        let state = subject.end_of(run);
        let meeting = in_one(&state).expect("the run ends in a meeting");
        broken_claim(subject, run, meeting)
    });
    subject.truth(run, sought.states, sought.cut, &bounds)
}

/// A run that breaks something, and what is wrong at its end.
fn broken(subject: &Subject, run: &Run, what: &str, end: Vec<String>) -> Vec<String> {
    let first = format!("FALSE: a run of {} breaks {what}", counted(run.steps.len(), "step"));
    [first].into_iter().chain(subject.run(run)).chain(end).collect()
}

fn broken_claim(subject: &Subject, run: &Run, meeting: &Meeting) -> Vec<String> {
    let end = format!("claimed never to happen: {}", subject.names.both(meeting));
    broken(subject, run, "a claim", vec![end])
}

/// The assertion that is false, and for what a thread should see the prospect that violates it.
fn false_there(subject: &Subject, state: &State, thread: u8) -> Vec<String> {
    let names = &subject.names;
    let point = state.points[usize::from(thread) - 1];
    let assertion = subject.program.assertion(thread, point);
    let at = names.at(thread, point);
    let mut said = vec![format!("false: {at}: {}", names.assertion(assertion))];
    violated(names, state, assertion, &mut said);
    said
}

fn violated(names: &Names, state: &State, a: &Assertion, said: &mut Vec<String>) {
    match a {
        Assertion::Both(p, q) | Assertion::Either(p, q) => {
            violated(names, state, p, said);
            violated(names, state, q, said);
        }
        Assertion::Sees(thread, interval) => {
            if let Some(prospect) = violation(state, *thread, interval) {
                said.push(format!("  not so: {}", names.assertion(a)));
                let views: Vec<String> = prospect.iter().map(|v| view(names, state, v)).collect();
                said.push(format!("  prospect: {}", views.join(" then ")));
            }
        }
        _ => {}
    }
}

/// The value of each word at a view.
fn view(names: &Names, state: &State, view: &View) -> String {
    let value = |x: u8| state.row(x)[usize::from(view.at(x))].value;
    let words = (1..).zip(&names.words).map(|(x, name)| format!("{name} = {}", value(x)));
    format!("({})", words.collect::<Vec<String>>().join(", "))
}

/// All final states. That some were not looked at is the answer of a search that a bound has cut.
fn all_outcomes(subject: &Subject, bounds: Bounds, runs: bool) -> Answer {
    let found = explore::outcomes(&subject.program, bounds);
    let finding = Finding::of(false, &found.cut);
    let said = outcomes::told(&subject.program, &subject.names, &found, runs);
    let listed = outcomes::as_json(&subject.program, &subject.names, &found, runs);
    let (states, cut) = (found.states, found.cut);
    Answer { finding, word: "outcomes", said, states, cut, outcomes: Some(listed) }
}

/// Can the condition be so when all threads are at their last points?
fn can_happen(subject: &Subject, bounds: Bounds, outcome: &str) -> Result<Answer, String> {
    let condition = condition_of(&subject.program, &subject.names, outcome)?;
    let sought = outcome_run(&subject.program, bounds, &condition);
    let finding = Finding::of_one(&sought);
    let run = sought.runs[0].iter().flat_map(|run| subject.run(run));
    let said = [outcome_told(&sought, &condition, outcome)].into_iter().chain(run).collect();
    let word = finding.of_condition(condition.quantifier);
    let Sought { states, cut, .. } = sought;
    Ok(Answer { finding, word, said, states, cut, outcomes: None })
}

/// What stands behind `--outcome`.
pub fn condition_of(program: &Program, names: &Names, outcome: &str) -> Result<Condition, String> {
    let read = parse_condition(names, &program.header, outcome);
    read.map_err(|e| format!("--outcome: {}", e.text))
}

/// What a search for an outcome comes to, in a line.
pub fn outcome_told(sought: &Sought, condition: &Condition, outcome: &str) -> String {
    let Sought { states, cut, bounds, .. } = sought;
    let far = match &sought.runs[0] {
        Some(run) => format!("after {}", counted(run.steps.len(), "step")),
        None if cut.any() => format!("in {}", not_all(*states, cut, bounds)),
        None => format!("in {}", all(*states)),
    };
    format!("{}: {outcome}, {far}", Finding::of_one(sought).of_condition(condition.quantifier))
}

/// Looks for a shortest run at whose end all threads are at their last points and the condition is decided.
pub fn outcome_run(program: &Program, bounds: Bounds, condition: &Condition) -> Sought {
    find(program, bounds, &|state| has_ended(program, state) && condition.decides(state))
}
