//! Each obligation and each claim judged by itself, and what may be said of it.

pub use crate::build::Goal;
use reference::checker::claims::is_shown;
use reference::checker::obligations::{duties, judge_one, Duty};
use reference::checker::rules::justified_lines;
use reference::checker::Verdict;
use reference::image::{Claim, Image};

/// The code of a claim that is not shown.
const NOT_SHOWN: u16 = 26;

/// An obligation or a claim with the line that it names and the code that it gets: 0 if its line serves it.
#[derive(Debug, Clone)]
pub struct Judged {
    pub goal: Goal,
    pub line: u16,
    pub code: u16,
}

impl Judged {
    /// Whether its line is justified and says what is wanted. That alone is no result: the rules speak of an image
    /// as a whole.
    pub fn has_its_line(&self) -> bool {
        self.code == 0
    }

    /// What may be said of it in an image that is accepted as a whole, or is not.
    pub fn standing(&self, accepted: bool) -> Standing {
        Standing::of(self.code, self.line, accepted)
    }
}

/// What may be said of an obligation or a claim.
#[derive(Debug, Clone, Copy, PartialEq, Eq)]
pub enum Standing {
    /// It has its line, as all others have theirs: it is a result.
    Met,
    /// It has its line, but another has none, so that it may be false all the same.
    LineThere,
    NoLine,
    OtherLine,
    Unjustified,
    /// A claim whose line is unjustified or concludes something else.
    NotShown,
}

impl Standing {
    /// What a code says of something with this line.
    pub fn of(code: u16, line: u16, accepted: bool) -> Standing {
        match code {
            0 if accepted => Standing::Met,
            0 => Standing::LineThere,
            21 => Standing::OtherLine,
            22 => Standing::Unjustified,
            _ if line == 0 => Standing::NoLine,
            _ => Standing::NotShown,
        }
    }

    /// The word for it in JSON.
    pub fn key(self) -> &'static str {
        match self {
            Standing::Met => "met",
            Standing::LineThere => "line-there",
            Standing::NoLine => "no-line",
            Standing::OtherLine => "other-line",
            Standing::Unjustified => "unjustified",
            Standing::NotShown => "not-shown",
        }
    }

    /// What is told of the line with this number.
    pub fn told(self, line: u16) -> String {
        match self {
            Standing::Met => format!("line {line}"),
            Standing::LineThere => format!("its line {line} is there; {NOTHING_FOLLOWS}"),
            Standing::NoLine => "it names no line".into(),
            Standing::OtherLine => format!("its line {line} concludes something else"),
            Standing::Unjustified => format!("its line {line} is not justified"),
            Standing::NotShown => {
                format!("its line {line} is not justified or concludes something else")
            }
        }
    }
}

/// What must be said of a line that is there in an image that is refused.
pub const NOTHING_FOLLOWS: &str = "nothing follows while others are open";

/// All obligations of an image in order, then its claims.
pub fn judged(image: &Image) -> Vec<Judged> {
    let justified = justified_lines(image);
    let obligations = duties(&image.program.threads).into_iter().zip(&image.obligations);
    let obligation = |(duty, &line): (Duty, &u16)| {
        let code = judge_one(image, &justified, &duty, line);
        Judged { goal: Goal::Duty(duty), line, code }
    };
    let claim = |claim: &Claim| {
        let code = if is_shown(image, &justified, claim) { 0 } else { NOT_SHOWN };
        Judged { goal: Goal::Claim(claim.meeting), line: claim.line, code }
    };
    obligations.map(obligation).chain(image.claims.iter().map(claim)).collect()
}

/// Whether all have their lines, as the verdict on the whole image says too. The answers are the independent
/// checker's; with a verdict that says otherwise they are not told.
pub fn is_accepted(judged: &[Judged], verdict: &Verdict) -> Result<bool, String> {
    let first = judged.iter().position(|judged| !judged.has_its_line());
    let duties = judged.iter().filter(|judged| matches!(judged.goal, Goal::Duty(_))).count();
    let code = first.map_or(0, |at| judged[at].code);
    let count = first.unwrap_or(duties).min(duties);
    if (code, count) != (verdict.code, usize::from(verdict.count)) {
        return Err(format!("the checkers disagree: {verdict}, but code {code} after {count}"));
    }
    Ok(code == 0)
}
