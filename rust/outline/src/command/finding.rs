//! What a search through the runs comes to: one of three answers, each with a status of its own.

use crate::command::Status;
use crate::text::condition::Quantifier;
use reference::explore::{Cut, Sought};

#[derive(Debug, Clone, Copy, PartialEq, Eq)]
pub enum Finding {
    /// There is a run.
    Happens,
    /// There is none: all states were seen.
    Never,
    /// No run was found, and a bound kept some state from being looked at.
    NotFound,
}

impl Finding {
    pub fn of(has_run: bool, cut: &Cut) -> Finding {
        match has_run {
            true => Finding::Happens,
            false if cut.any() => Finding::NotFound,
            false => Finding::Never,
        }
    }

    /// What a search for one run comes to.
    pub fn of_one(sought: &Sought) -> Finding {
        Finding::of(sought.runs[0].is_some(), &sought.cut)
    }

    pub fn status(self) -> Status {
        match self {
            Finding::Happens => Status::Refused,
            Finding::Never => Status::Accepted,
            Finding::NotFound => Status::NotFound,
        }
    }

    /// Its word where a condition of final states is asked for: a run shows that it happens, or that not all are so.
    pub fn of_condition(self, quantifier: Quantifier) -> &'static str {
        let forall = quantifier == Quantifier::Forall;
        match self {
            Finding::Happens if forall => "not always",
            Finding::Never if forall => "always",
            Finding::Happens => "happens",
            Finding::Never => "never",
            Finding::NotFound => "not found",
        }
    }

    /// Its word where assertions or claims are.
    pub fn of_truth(self) -> &'static str {
        match self {
            Finding::Happens => "false",
            Finding::Never => "holds",
            Finding::NotFound => "not found",
        }
    }
}
