//! New code without a restart: threads that run under an old image's code go on under a new image's, by a table that
//! gives each old point a new one and a line of the new image.

mod replay;

use crate::checker::{accepted, rules};
use crate::image::{Image, Program, Statement};
use crate::machine::State;
pub use replay::{replay_handover, replayed_across, Across, Traces};

/// An image is not accepted, or the two are unlike.
pub const UNLIKE: u16 = 32;
/// The table is too short, too long, or out of range anywhere.
pub const OUT_OF_RANGE: u16 = 33;
/// A named line does not serve.
pub const DOES_NOT_SERVE: u16 = 34;

/// The bytes of an entry of the table: new point, line.
pub const ENTRY_BYTES: usize = 3;

/// Two programs, and where their threads go on.
#[derive(Clone, Debug, PartialEq, Eq)]
pub struct Handover {
    pub old: Program,
    pub new: Program,
    /// The new point for each old point, by thread.
    pub points: Vec<Vec<u8>>,
}

/// The code of a handover: 0 if it is permitted.
pub fn check_handover(old: &[u8], new: &[u8], table: &[u8]) -> u16 {
    permitted(old, new, table).err().unwrap_or(0)
}

/// The handover, if it is permitted; else the code.
pub fn permitted(old: &[u8], new: &[u8], table: &[u8]) -> Result<Handover, u16> {
    let (Some(old), Some(new)) = (accepted(old), accepted(new)) else {
        return Err(UNLIKE);
    };
    between(&old, &new, table)
}

/// The same for two images that are accepted.
pub fn between(old: &Image, new: &Image, table: &[u8]) -> Result<Handover, u16> {
    if old.program.header != new.program.header {
        return Err(UNLIKE);
    }
    let entries = entries(&old.program, table).ok_or(OUT_OF_RANGE)?;
    if !entries.iter().all(|entry| entry.is_in_range(new)) {
        return Err(OUT_OF_RANGE);
    }
    let justified = rules::justified_lines(new);
    if !entries.iter().all(|entry| entry.is_served(old, new, &justified)) {
        return Err(DOES_NOT_SERVE);
    }
    let mut points = vec![Vec::new(); old.program.threads.len()];
    for entry in entries {
        points[usize::from(entry.thread) - 1].push(entry.to);
    }
    Ok(Handover { old: old.program.clone(), new: new.program.clone(), points })
}

/// Where a thread that is at an old point goes on, and the line that permits it.
pub struct Entry {
    pub thread: u8,
    pub from: u8,
    pub to: u8,
    pub line: u16,
}

/// An entry for each old point, threads in order; none if the table is shorter or longer.
pub fn entries(old: &Program, table: &[u8]) -> Option<Vec<Entry>> {
    let places: Vec<(u8, u8)> = places(old).collect();
    if table.len() != ENTRY_BYTES * places.len() {
        return None;
    }
    let entry = |((thread, from), bytes): ((u8, u8), &[u8])| Entry {
        thread,
        from,
        to: bytes[0],
        line: u16::from_le_bytes([bytes[1], bytes[2]]),
    };
    Some(places.into_iter().zip(table.chunks_exact(ENTRY_BYTES)).map(entry).collect())
}

/// Every thread and point, the last points too, in the order of the table.
pub fn places(program: &Program) -> impl Iterator<Item = (u8, u8)> + '_ {
    let threads = (1..).zip(&program.outline);
    threads.flat_map(|(thread, points)| (0..points.len() as u8).map(move |point| (thread, point)))
}

impl Entry {
    /// Whether the thread has the point in the new image, and the new image the line.
    pub fn is_in_range(&self, new: &Image) -> bool {
        let points = new.program.outline[usize::from(self.thread) - 1].len();
        usize::from(self.to) < points && (1..=new.lines.len()).contains(&usize::from(self.line))
    }

    /// Whether the line is a justified implication from the old point's assertion to the new point's.
    pub fn is_served(&self, old: &Image, new: &Image, justified: &[bool]) -> bool {
        let index = usize::from(self.line) - 1;
        let left = old.program.assertion(self.thread, self.from).clone();
        let right = new.program.assertion(self.thread, self.to).clone();
        new.lines[index].statement == Statement::Implication { left, right } && justified[index]
    }
}

impl Handover {
    /// The state under the new code: memory, views and registers stay, the points are mapped.
    pub fn mapped(&self, state: &State) -> State {
        let points = state.points.iter().zip(&self.points);
        let points = points.map(|(&point, mapped)| mapped[usize::from(point)]).collect();
        State { points, ..state.clone() }
    }
}

#[cfg(test)]
mod tests;
