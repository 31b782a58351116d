//! A valid instance of each rule, over a random setting.

mod implications;
mod inclusions;
mod pairs;
mod tests_by_rows;
mod triples;

use super::random::Random;
use super::vocabulary::Vocabulary;
use reference::checker::rules::Form;
use reference::formula::{Assertion, Interval};
use reference::image::{Header, Instruction};
use reference::proof::Lemma;
use std::rc::Rc;

/// The operations that triples are about: all but branches.
pub const ACTIONS: [u8; 12] = [0, 1, 2, 3, 4, 5, 7, 8, 9, 10, 11, 12];

/// What an instance is made from.
pub struct Setting<'a> {
    pub random: &'a mut Random,
    pub header: &'a Header,
    /// The thread and point of the instruction.
    pub place: (u8, u8),
    pub action: &'a Instruction,
}

impl Setting<'_> {
    fn vocabulary(&self) -> Vocabulary {
        Vocabulary::of(self.header)
    }

    fn interval(&mut self) -> Rc<Interval> {
        self.vocabulary().interval(self.random, 1)
    }

    fn assertion(&mut self) -> Rc<Assertion> {
        self.vocabulary().assertion(self.random, 1)
    }

    fn thread(&mut self) -> u8 {
        self.random.between(1, self.header.counts.threads)
    }
}

/// The operations for which a rule has instances.
pub fn operations(rule: u8) -> &'static [u8] {
    match rule {
        1 => &[1, 2, 3, 4, 5, 7, 8, 9, 10, 11],
        2 => &[0, 12],
        3 | 4 => &[1, 2],
        5 => &[2, 5, 7, 8, 11],
        6 | 7 => &[3, 4, 9, 10],
        8 => &[4, 10],
        9 => &[3, 4, 5, 9, 10, 11],
        10 => &[3, 4, 5, 7, 8, 9, 10, 11],
        11 | 12 => &[5, 11],
        13 => &[5, 7, 8, 11],
        47..=49 => &[7, 8],
        50 => &[9, 10, 11],
        _ => &ACTIONS,
    }
}

/// An instance of the rule. The setting's instruction must be one of its operations.
pub fn instance(setting: &mut Setting, rule: u8) -> Lemma {
    match Form::of_rule(rule).expect("a rule") {
        Form::Triple => triples::instance(setting, rule),
        Form::Implication => implications::instance(setting, rule),
        Form::Inclusion => inclusions::instance(setting, rule),
    }
}
