//! Pairs: rule 50 over a triple of the first half. All other parts of the search speak of first halves alone.

use crate::search::prover::{At, Line, Prover};
use crate::terms::*;
use reference::checker::rules::{before_notes, OF_PAIR};
use reference::image::{Instruction, Note};
use std::slice;

impl Prover<'_> {
    /// A line for the whole instruction at a place: a pair's by rule 50, any other's as it is.
    pub fn whole(&mut self, at: At, p: &A, q: &A) -> Option<Line> {
        match self.pair_note(at) {
            Some(_) => self.by_half(at, p, q),
            None => self.triple(at, p, q),
        }
    }

    /// Rule 50, where there is a pair.
    pub fn by_half(&mut self, at: At, p: &A, q: &A) -> Option<Line> {
        self.pair_note(at)?;
        let half = self.triple(at, p, &self.goal_of_half(at, q))?;
        self.step(at, OF_PAIR, p, q, &[half])
    }

    /// What the first half has to bring about for the whole instruction to bring about Q.
    pub fn goal_of_half(&self, at: At, q: &A) -> A {
        match self.pair_note(at) {
            Some(note) => before_notes(q, slice::from_ref(&note)),
            None => q.clone(),
        }
    }

    fn pair_note(&self, at: At) -> Option<Note> {
        let instruction = self.program.instruction(at.thread, at.point);
        instruction.and_then(Instruction::pair_note).cloned()
    }

    /// The line that others may rest on: of a pair's line the one about its first half.
    pub fn half_of(&self, line: Line) -> Line {
        let entry = &self.lines.entries[line];
        if entry.rule == OF_PAIR {
            entry.premises[0]
        } else {
            line
        }
    }
}
