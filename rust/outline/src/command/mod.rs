//! The commands: what they read, what they print, and their status.

pub mod bill;
pub mod build;
pub mod check;
pub mod date;
pub mod draw;
pub mod explain;
pub mod explore;
pub mod export;
pub mod finding;
pub mod gather;
pub mod handover;
pub mod help;
pub mod import;
pub mod infer;
pub mod input;
pub use system::interrupt;
pub mod json;
pub mod judge;
pub mod litmus;
pub mod migrate;
pub mod names;
pub mod options;
pub mod outcomes;
pub mod output;
pub mod permit;
pub mod progress;
pub mod replay;
pub mod replayer;
pub mod report;
pub mod same;
pub mod serve;
pub mod service;
pub mod show;
pub mod spread;
pub mod trim;
pub mod trimmer;
pub mod truth;
pub mod words;

use std::io::Write;

/// How a command ends.
#[derive(Debug, Clone, Copy, PartialEq, Eq)]
pub enum Status {
    /// Accepted; or true, or never, in all states.
    Accepted = 0,
    /// Refused, open, false, or an outcome that happens.
    Refused = 1,
    /// Wrong use, or something that cannot be read or written.
    Unusable = 2,
    /// Neither shown nor broken, as far as was looked: a bound kept some state from being looked at, or nothing was found.
    NotFound = 3,
    /// All is met, but by further rules: no verdict.
    Further = 4,
}

impl Status {
    /// Of several files the one that is worst decides: what is no verdict is worse than what is accepted, and no worse
    /// than anything else.
    fn weight(self) -> u8 {
        match self {
            Status::Accepted => 0,
            Status::Further => 1,
            other => 1 + other as u8,
        }
    }
}

impl Ord for Status {
    fn cmp(&self, other: &Status) -> std::cmp::Ordering {
        self.weight().cmp(&other.weight())
    }
}

impl PartialOrd for Status {
    fn partial_cmp(&self, other: &Status) -> Option<std::cmp::Ordering> {
        Some(self.cmp(other))
    }
}

/// What a command comes to; a text is a message about wrong use or a file.
pub type Done = Result<Status, String>;

/// Writes a text to standard output; a full disk is an error like any other.
pub fn print(text: impl AsRef<str>) -> Result<(), String> {
    print_bytes(names::shown(text.as_ref()).as_bytes())
}

/// Writes bytes to standard output as they are.
pub fn print_bytes(bytes: &[u8]) -> Result<(), String> {
    let mut out = std::io::stdout().lock();
    let written = out.write_all(bytes).and_then(|()| out.flush());
    written.map_err(|e| format!("standard output: {e}"))
}

/// Writes a text to standard error. Where nobody hears it, the status still says what happened.
pub fn complain(text: impl AsRef<str>) {
    let _ = std::io::stderr().lock().write_all(names::shown(text.as_ref()).as_bytes());
}
