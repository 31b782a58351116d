//! A source to an image: by search, or by a certificate written out.

use crate::infer::{Before, Wanting};
use crate::search::budget::{Budget, BEYOND, SHARE, TRIES};
use crate::search::certificate::Certificate;
use crate::search::kept::Kept;
use crate::search::prover::{At, Prover};
use crate::search::shorten::Shortened;
use crate::search::tried::Lacking;
use crate::text::lex::Mistake;
use crate::text::source::{Hint, Source};
use reference::assemble::Assembly;
use reference::checker::limits::FORMULAS;
use reference::checker::obligations::{duties, Duty};
use reference::checker::rules::table::Leaves;
use reference::checker::rules::Rules;
use reference::formula::nesting::Nesting;
use reference::image::written::Written;
use reference::image::{Claim, Instruction, Meeting, Program, Statement};

/// What a line is wanted for: an obligation or a claim.
#[derive(Debug, Clone, Copy, PartialEq, Eq)]
pub enum Goal {
    Duty(Duty),
    Claim(Meeting),
}

impl Goal {
    /// All that an image of the source needs a line for: obligations, then claims.
    pub fn all(source: &Source) -> Vec<Goal> {
        let duties = duties(&source.threads).into_iter().map(Goal::Duty);
        duties.chain(source.meetings().into_iter().map(Goal::Claim)).collect()
    }

    /// Whether a point of a thread is one that it speaks of: where something is asserted, or where a thread acts.
    pub fn is_at(&self, place: (u8, u8)) -> bool {
        match *self {
            Goal::Duty(Duty::Start { thread }) => place == (thread, 0),
            Goal::Duty(Duty::Next { thread, point } | Duty::Taken { thread, point }) => {
                place == (thread, point)
            }
            Goal::Duty(Duty::Kept { thread, point, actor, action }) => {
                place == (thread, point) || place == (actor, action)
            }
            Goal::Claim(Meeting { thread, point, other_thread, other_point }) => {
                place == (thread, point) || place == (other_thread, other_point)
            }
        }
    }

    /// Of a goal about an instruction: its place, and the points whose assertions are known before it.
    fn before(&self) -> Option<(At, Vec<(u8, u8)>)> {
        match *self {
            Goal::Duty(Duty::Next { thread, point }) => {
                Some((At { thread, point }, vec![(thread, point)]))
            }
            Goal::Duty(Duty::Kept { thread, point, actor, action }) => {
                let at = At { thread: actor, point: action };
                Some((at, vec![(thread, point), (actor, action)]))
            }
            _ => None,
        }
    }

    /// What the line must say.
    pub fn wanted(&self, program: &Program) -> Statement {
        match self {
            Goal::Duty(duty) => duty.wanted(program),
            Goal::Claim(meeting) => meeting.wanted(program),
        }
    }
}

/// An obligation or a claim that stays open, with what was tried.
#[derive(Debug, Clone)]
pub struct Open {
    pub goal: Goal,
    pub wanted: Statement,
    pub tried: Vec<String>,
    /// The tries after which the search was given up, if it was.
    pub given_up: Option<u64>,
}

/// What building gives: an image, and what has no line in it.
#[derive(Debug)]
pub struct Built {
    pub image: Written,
    /// Obligations first, then claims.
    pub open: Vec<Open>,
    /// Named steps that were not found.
    pub failed: Vec<Mistake>,
    /// How many obligations and claims were not tried, since the search was stopped.
    pub untried: usize,
    /// The tries that the search has made, and the most for one obligation or named step.
    pub tries: u64,
    pub most_tries: u64,
}

impl Built {
    /// How many claims are open.
    pub fn open_claims(&self) -> usize {
        self.open.iter().filter(|open| matches!(open.goal, Goal::Claim(_))).count()
    }
}

/// Builds the image of a source.
pub fn build(source: &Source) -> Result<Built, Mistake> {
    build_within(source, TRIES)
}

/// Builds with so many tries for each obligation and each named step.
pub fn build_within(source: &Source, tries: u64) -> Result<Built, Mistake> {
    let mut built = build_past_failures(source, tries)?;
    match built.failed.is_empty() {
        true => Ok(built),
        false => Err(built.failed.remove(0)),
    }
}

/// As `build_within`, but goes on past a named step that is not found.
pub fn build_past_failures(source: &Source, tries: u64) -> Result<Built, Mistake> {
    build_watched(source, tries, &|_, _| true)
}

/// Is told before each obligation and claim how many are done, and of how many; says whether the search goes on.
pub type Watch<'a> = &'a dyn Fn(usize, usize) -> bool;

/// As `build_past_failures`, while somebody watches.
pub fn build_watched(source: &Source, tries: u64, watch: Watch) -> Result<Built, Mistake> {
    build_with(source, Kept::Needed, tries, watch)
}

/// As `build_watched`, with these lines. A certificate that is written out has the lines that it has.
pub fn build_with(source: &Source, kept: Kept, tries: u64, watch: Watch) -> Result<Built, Mistake> {
    match &source.certificate {
        Some(certificate) => crate::explicit::build(source, certificate),
        None => Ok(search(source, kept, tries, watch)),
    }
}

fn search(source: &Source, kept: Kept, tries: u64, watch: Watch) -> Built {
    let program = source.program();
    let mut prover = Prover::new(&program, source.names.clone());
    prover.budget = Budget::of(tries);
    let goals = Goal::all(source);
    let mut beyond = BEYOND;
    let hints = source.hints.iter().take_while(|_| watch(0, goals.len()));
    let taken = hints.map(|hint| (hint, take_hint(&mut prover, hint, &mut beyond)));
    let mut failed: Vec<(&Hint, Mistake)> =
        taken.filter_map(|(hint, taken)| Some((hint, taken.err()?))).collect();
    let mut sought = Sought::of(&goals, &program);
    let mut untried = sought.in_turn(&mut prover, watch);
    sought.again(&mut prover, beyond, watch);
    if source.rules == Rules::WithFurther && (sought.is_open() || !failed.is_empty()) {
        prover.go_by(Rules::WithFurther);
        let mut beyond = BEYOND;
        failed.retain(|(hint, _)| take_hint(&mut prover, hint, &mut beyond).is_err());
        sought.open_again();
        untried = sought.in_turn(&mut prover, watch);
        sought.again(&mut prover, beyond, watch);
    }
    let failed = failed.into_iter().map(|(_, mistake)| mistake).collect();
    let (tries, most_tries) = prover.budget.made();
    let open = sought.left_open(&mut prover);
    let found: Vec<(Goal, Option<usize>)> =
        sought.goals.iter().map(|one| (one.goal, one.line)).collect();
    let mut image = assemble(&program, &prover.lines, kept, &found);
    if image.formulas.len() > FORMULAS {
        image = shorter(&program, &prover.lines, &found);
    }
    Built { image, open, failed, untried, tries, most_tries }
}

/// A goal, and what the search has found for it so far.
pub(crate) struct One {
    pub goal: Goal,
    pub wanted: Statement,
    pub line: Option<usize>,
    pub tried: bool,
    /// Whether it was sought before, in vain, and is not sought again.
    pub known: bool,
    /// The tries after which it was given up, if it was.
    pub given_up: Option<u64>,
    pub told: (Vec<String>, Option<Lacking>),
}

/// All goals of an outline.
pub(crate) struct Sought<'p> {
    program: &'p Program,
    pub goals: Vec<One>,
}

impl<'p> Sought<'p> {
    pub fn of(goals: &[Goal], program: &'p Program) -> Sought<'p> {
        let one = |goal: &Goal| One {
            goal: *goal,
            wanted: goal.wanted(program),
            line: None,
            tried: false,
            known: false,
            given_up: None,
            told: Default::default(),
        };
        Sought { program, goals: goals.iter().map(one).collect() }
    }

    /// Each goal within its share, so that none keeps the others from their turn; how many were not tried.
    pub fn in_turn(&mut self, prover: &mut Prover, watch: Watch) -> usize {
        let all = self.goals.len();
        for (done, one) in self.goals.iter_mut().enumerate() {
            if !one.tried && watch(done, all) {
                one.seek(prover, SHARE);
            }
        }
        self.goals.iter().filter(|one| !one.tried).count()
    }

    fn is_open(&self) -> bool {
        self.goals.iter().any(|one| one.line.is_none())
    }

    /// What has no line is sought once more, by more rules.
    fn open_again(&mut self) {
        for one in self.goals.iter_mut().filter(|one| one.line.is_none()) {
            (one.tried, one.known, one.given_up) = (false, false, None);
        }
    }

    /// Those that were given up, the likeliest first, with what is left for all of them.
    pub fn again(&mut self, prover: &mut Prover, mut beyond: u64, watch: Watch) {
        let all = self.goals.len();
        let mut open: Vec<&mut One> =
            self.goals.iter_mut().filter(|one| one.given_up.is_some() && !one.known).collect();
        open.sort_by_key(|one| unlikely(prover, &one.wanted));
        let closed = all - open.len();
        for (done, one) in open.into_iter().enumerate() {
            if beyond == 0 || !watch(closed + done, all) {
                return;
            }
            let before = prover.budget.made().0;
            one.seek(prover, beyond);
            beyond = beyond.saturating_sub(prover.budget.made().0 - before);
        }
    }

    /// What is told of each goal without a line.
    pub fn left_open(&self, prover: &mut Prover) -> Vec<Open> {
        let tried = |one: &&One| one.line.is_none() && one.tried;
        let mut wanting = None;
        let mut open = Vec::new();
        for one in self.goals.iter().filter(tried) {
            let tried = one.words(prover, &mut wanting, self.program);
            let (goal, wanted, given_up) = (one.goal, one.wanted.clone(), one.given_up);
            open.push(Open { goal, wanted, tried, given_up });
        }
        open
    }
}

/// The lower, the likelier is it to be found: named steps stand for its instruction, and it has few leaves.
fn unlikely(prover: &Prover, wanted: &Statement) -> (bool, usize) {
    let named = match *wanted {
        Statement::Triple { thread, point, .. } => {
            !prover.steps_at(At { thread, point }).is_empty()
        }
        _ => false,
    };
    let Leaves(leaves) = Leaves::of(wanted.assertions().0);
    (!named, leaves.len())
}

impl One {
    /// Looks for its line within so many tries.
    fn seek(&mut self, prover: &mut Prover, tries: u64) {
        prover.tried.clear();
        prover.lacking = None;
        prover.budget.renew_within(tries);
        self.line = prove(prover, &self.wanted);
        self.tried = true;
        let spent = self.line.is_none() && prover.budget.is_spent();
        self.given_up = spent.then(|| prover.budget.allowed());
        self.told = (std::mem::take(&mut prover.tried), prover.lacking.take());
    }

    /// What was tried, and what it would need.
    fn words<'p>(
        &self,
        prover: &mut Prover,
        wanting: &mut Option<Wanting<'p>>,
        program: &'p Program,
    ) -> Vec<String> {
        let (mut lines, lacking) = self.told.clone();
        if let (Some(lacking), Some((at, places))) = (lacking, self.goal.before()) {
            lines.push(format!("open case    {}", prover.known_words(&lacking.case)));
            prover.budget.renew_within(SHARE);
            let parts = prover.not_reached(&lacking);
            let wanting = wanting.get_or_insert_with(|| Wanting::of(program, prover.names.clone()));
            let before = Before { at, places: &places, case: &lacking.case };
            lines.extend(wanting.told(before, &parts));
        }
        if let Some(most) = self.given_up {
            lines.push(format!(
                "given up     after {most} tries: whether rules lead there is not known"
            ));
        }
        if lines.is_empty() {
            lines.push("tried        lines that pass 255 bytes, nesting 16 or 10 leaves".into());
        }
        lines
    }
}

/// A line for one obligation or claim.
pub fn prove(prover: &mut Prover, wanted: &Statement) -> Option<usize> {
    if !wanted.sides().0.fits_record() {
        prover.tried.push(
            "tried        nothing: the assertions together pass 255 bytes or nesting 16".into(),
        );
        return None;
    }
    let (left, right) = wanted.assertions();
    match *wanted {
        Statement::Triple { thread, point, .. } => prover.whole(At { thread, point }, left, right),
        _ => prover.implication(left, right).or_else(|| prover.tell_implication(left, right)),
    }
}

/// Proves what the writer named, by the rule named or by search, and keeps it in mind.
pub(crate) fn take_hint(prover: &mut Prover, hint: &Hint, beyond: &mut u64) -> Result<(), Mistake> {
    let fail = |text: String| Err(Mistake { line: hint.line, text });
    if let Statement::Triple { thread, point, .. } = hint.statement {
        if prover.program.instruction(thread, point).is_none_or(Instruction::is_branch) {
            return fail("no instruction with triples stands at this point".into());
        }
    }
    prover.tried.clear();
    prover.lacking = None;
    let before = prover.budget.made().0;
    prover.budget.renew_within(SHARE.max(*beyond));
    let found = prover.hinted(hint);
    let Some(line) = found else {
        *beyond = beyond.saturating_sub(prover.budget.made().0 - before);
        let by = hint.rule.map(|r| format!(" by rule {r}")).unwrap_or_default();
        let tried = hint_words(prover).iter().map(|t| format!("\n  {t}")).collect::<String>();
        return fail(format!("this step of the proof was not found{by}{tried}"));
    };
    prover.forget_failures(&hint.statement);
    match hint.statement {
        Statement::Triple { .. } => prover.steps.push(prover.half_of(line)),
        Statement::Implication { .. } => prover.facts.push(line),
        Statement::Inclusion { .. } => prover.parts.push(line),
    }
    Ok(())
}

/// What was tried for a named step.
fn hint_words(prover: &mut Prover) -> Vec<String> {
    let mut lines = std::mem::take(&mut prover.tried);
    if prover.budget.is_spent() {
        lines.push(format!("given up     after {} tries", prover.budget.allowed()));
    } else if let Some(lacking) = prover.lacking.take() {
        lines.push(format!("open case    {}", prover.known_words(&lacking.case)));
        let parts = prover.not_reached(&lacking).into_iter();
        lines.extend(parts.map(|part| format!("not reached  {}", prover.names.assertion(&part))));
    }
    lines
}

/// The image with as few formulas as leaving out lines gives.
pub(crate) fn shorter(
    program: &Program,
    found: &Certificate,
    goals: &[(Goal, Option<usize>)],
) -> Written {
    let roots: Vec<usize> = goals.iter().filter_map(|(_, line)| *line).collect();
    let mut shortened = Shortened::of(program, found, &roots);
    shortened.run();
    let (lines, roots) = shortened.lines();
    let mut roots = roots.into_iter();
    let goals: Vec<(Goal, Option<usize>)> =
        goals.iter().map(|(goal, line)| (*goal, line.and_then(|_| roots.next()))).collect();
    assemble(program, &lines, Kept::Needed, &goals)
}

/// Numbers formulas and lines.
pub(crate) fn assemble(
    program: &Program,
    lines: &Certificate,
    kept: Kept,
    found: &[(Goal, Option<usize>)],
) -> Written {
    let mut image = Assembly::of(program);
    let roots: Vec<usize> = found.iter().filter_map(|(_, line)| *line).collect();
    let kept = kept.places(lines, program, &roots);
    let place = |at: usize| kept.binary_search(&at).map_or(0, |i| i as u16 + 1);
    for at in &kept {
        let entry = &lines.entries[*at];
        let premises = entry.premises.iter().map(|p| place(*p)).collect();
        image.line(entry.rule, &entry.statement, premises);
    }
    if kept.is_empty() {
        // An image holds at least one line; this one serves nothing and harms nothing.
        let first = program.outline[0][0].clone();
        let same = Statement::Implication { left: first.clone(), right: first };
        image.line(20, &same, Vec::new());
    }
    for (goal, line) in found {
        let line = line.map_or(0, place);
        match *goal {
            Goal::Duty(_) => image.obligation(line),
            Goal::Claim(meeting) => image.claim(Claim { meeting, line }),
        }
    }
    image.written()
}
