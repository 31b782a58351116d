//! The table of a handover: for each old point a new one, and an implication that is sought and written into the new
//! image.

use crate::search::budget::TRIES;
use crate::search::prover::{implication, Line, Prover};
use crate::terms::A;
use crate::text::print::Names;
use reference::checker::rules::justified_lines;
use reference::formula::encode::Encode;
use reference::formula::Formula;
use reference::handover::{places, Handover};
use reference::image::written::{self, Written};
use reference::image::{Image, Program, Statement};
use std::collections::{BTreeMap, BTreeSet};

/// A thread's point: thread from 1, point from 0.
pub type Place = (u8, u8);

/// Where a thread that is at an old point goes on.
#[derive(Debug, Clone, Copy, PartialEq, Eq)]
pub struct Move {
    pub from: Place,
    pub to: u8,
    /// The line of the new image that permits it.
    pub line: u16,
}

/// An old point for which no line was found.
#[derive(Debug, Clone, PartialEq, Eq)]
pub struct Open {
    pub from: Place,
    /// The new points that were tried; one alone if it was chosen.
    pub tried: Vec<u8>,
    /// What the search says of the first of them.
    pub told: Vec<String>,
    /// The tries after which the search was given up, if it was.
    pub given_up: Option<u64>,
}

/// What the search for a table gives.
#[derive(Debug)]
pub struct Found {
    /// The new image, with the lines that the table names.
    pub image: Written,
    pub moves: Vec<Move>,
    pub open: Vec<Open>,
}

impl Found {
    /// The bytes of the table.
    pub fn table(&self) -> Vec<u8> {
        let entry = |step: &Move| {
            let [low, high] = step.line.to_le_bytes();
            [step.to, low, high]
        };
        self.moves.iter().flat_map(entry).collect()
    }

    /// The lines that the table needs and nothing else does: trimming drops them.
    pub fn only_here(&self) -> usize {
        let image = &self.image;
        let claims = image.claims.iter().map(|claim| claim.line);
        let kept = below(image, image.obligations.iter().copied().chain(claims));
        let needed = below(image, self.moves.iter().map(|step| step.line));
        needed.difference(&kept).count()
    }
}

/// The lines that these rest on, themselves among them; 0 names none.
fn below(image: &Written, roots: impl Iterator<Item = u16>) -> BTreeSet<u16> {
    let mut waiting: Vec<u16> = roots.filter(|number| *number > 0).collect();
    let mut met = BTreeSet::new();
    while let Some(number) = waiting.pop() {
        if met.insert(number) {
            waiting.extend(&image.lines[usize::from(number) - 1].premises);
        }
    }
    met
}

/// Points that the caller has chosen, by old point.
pub type Chosen = BTreeMap<Place, u8>;

/// Finds a new point and a line for each old point, in an image that says what `written` does. What is not chosen is
/// proposed.
pub fn find(old: &Program, new: &Image, written: Written, names: Names, chosen: &Chosen) -> Found {
    let mut search = Search::new(new, written, names);
    let (mut moves, mut open) = (Vec::new(), Vec::new());
    for from in places(old) {
        let left = old.assertion(from.0, from.1);
        let tried = match chosen.get(&from) {
            Some(&to) => vec![to],
            None => proposed(left, &new.program, from),
        };
        let found = tried.iter().find_map(|&to| Some((to, search.line(left, (from.0, to))?)));
        match found {
            Some((to, line)) => moves.push(Move { from, to, line }),
            None => {
                let (told, given_up) = search.tell(left, (from.0, tried[0]));
                open.push(Open { from, tried, told, given_up });
            }
        }
    }
    Found { image: search.image, moves, open }
}

/// New points in the order in which they are tried: equal assertions before others, in both the old point's number first.
fn proposed(left: &A, new: &Program, (thread, from): Place) -> Vec<u8> {
    let assertions = &new.outline[usize::from(thread) - 1];
    let mut points: Vec<u8> = (0..assertions.len() as u8).collect();
    points.sort_by_key(|&to| (assertions[usize::from(to)] != *left, to != from, to));
    points
}

/// A new image that grows by the lines that are found.
struct Search<'a> {
    prover: Prover<'a>,
    image: Written,
    /// The image's justified implications, and what was added to them.
    known: Vec<(Statement, u16)>,
    /// The numbers in the image of what the prover has found.
    numbers: BTreeMap<Line, u16>,
}

impl<'a> Search<'a> {
    fn new(new: &'a Image, image: Written, names: Names) -> Search<'a> {
        let justified = justified_lines(new);
        let lines = (1..).zip(&new.lines).zip(justified);
        let implications = lines.filter(|((_, line), justified)| {
            *justified && matches!(line.statement, Statement::Implication { .. })
        });
        let known = implications.map(|((number, line), _)| (line.statement.clone(), number));
        let known = known.collect();
        let prover = Prover::new(&new.program, names);
        Search { prover, image, known, numbers: BTreeMap::new() }
    }

    /// The number of a line from the left side to the assertion of a new point: one that is there, or one that is found.
    fn line(&mut self, left: &A, to: Place) -> Option<u16> {
        let right = self.prover.program.assertion(to.0, to.1).clone();
        let wanted = implication(left, &right);
        if let Some((_, number)) = self.known.iter().find(|(statement, _)| *statement == wanted) {
            return Some(*number);
        }
        self.prover.tried.clear();
        self.prover.budget.renew();
        let found = self.prover.implication(left, &right)?;
        let number = self.write(found);
        self.known.push((wanted, number));
        Some(number)
    }

    /// What the search says of a line that it does not find.
    fn tell(&mut self, left: &A, to: Place) -> (Vec<String>, Option<u64>) {
        let right = self.prover.program.assertion(to.0, to.1).clone();
        self.prover.tried.clear();
        self.prover.budget.renew();
        if self.prover.implication(left, &right).is_none() {
            self.prover.tell_implication(left, &right);
        }
        (self.prover.tried.clone(), self.prover.budget.is_spent().then_some(TRIES))
    }

    /// Writes a line that was found, and those that it rests on, unless they are there.
    fn write(&mut self, found: Line) -> u16 {
        for at in self.prover.lines.needed(&[found]) {
            if !self.numbers.contains_key(&at) {
                let line = self.numbered(at);
                let number = push_new(&mut self.image.lines, line);
                self.numbers.insert(at, number);
            }
        }
        self.numbers[&found]
    }

    /// A line of the search as an image has it.
    fn numbered(&mut self, at: Line) -> written::Line {
        let entry = &self.prover.lines.entries[at];
        let (thread, point) = entry.statement.place();
        let (left, right) = entry.statement.sides();
        let premises = entry.premises.iter().map(|premise| self.numbers[premise]).collect();
        let mut number = |side: Formula| push_new(&mut self.image.formulas, side.encode());
        written::Line {
            rule: entry.rule,
            thread,
            point,
            left: number(left),
            right: number(right),
            premises,
        }
    }
}

/// The number of a record in a list, to which it is added if it is new.
fn push_new<T: PartialEq>(list: &mut Vec<T>, record: T) -> u16 {
    let known = list.iter().position(|other| *other == record);
    let index = known.unwrap_or_else(|| {
        list.push(record);
        list.len() - 1
    });
    index as u16 + 1
}

/// The handover by these moves, permitted or not; an old point without one goes to the point tried first.
pub fn handover(old: &Program, new: &Program, found: &Found) -> Handover {
    let mut points: Vec<Vec<u8>> = old.outline.iter().map(|all| vec![0; all.len()]).collect();
    let moved = found.moves.iter().map(|step| (step.from, step.to));
    for ((thread, from), to) in
        moved.chain(found.open.iter().map(|open| (open.from, open.tried[0])))
    {
        points[usize::from(thread) - 1][usize::from(from)] = to;
    }
    Handover { old: old.clone(), new: new.clone(), points }
}
