//! States of the machine.

use crate::formula::evaluate::Environment;
use crate::image::{Header, Meeting};

/// The most words that a program has.
pub const WORDS: usize = 8;

/// One write of each word, by its position in the word's row.
/// Words that the program does not have stay at 0.
#[derive(Clone, Copy, Debug, Default, PartialEq, Eq, Hash)]
pub struct View(pub [u8; WORDS]);

impl View {
    /// The position named for a word; words count from 1.
    pub fn at(&self, word: u8) -> u8 {
        self.0[usize::from(word) - 1]
    }

    /// The view that names another write of one word.
    pub fn moved(mut self, word: u8, position: u8) -> View {
        self.0[usize::from(word) - 1] = position;
        self
    }

    /// Word by word the later of the two.
    pub fn joined(mut self, other: &View) -> View {
        for (mine, theirs) in self.0.iter_mut().zip(other.0) {
            *mine = theirs.max(*mine);
        }
        self
    }

    /// Whether this view is later than the other in some word.
    pub fn later_somewhere(&self, other: &View) -> bool {
        self.0.iter().zip(other.0).any(|(&mine, theirs)| mine > theirs)
    }

    /// The same writes after one was inserted directly behind `picked` in a row.
    pub fn renumbered(self, word: u8, picked: u8) -> View {
        let position = self.at(word);
        self.moved(word, if position > picked { position + 1 } else { position })
    }
}

/// A write in a word's row.
#[derive(Clone, Copy, Debug, PartialEq, Eq, Hash)]
pub struct Write {
    pub value: u8,
    pub releasing: bool,
    pub covered: bool,
    pub stored: View,
}

/// A state of the machine.
#[derive(Clone, Debug, PartialEq, Eq, Hash)]
pub struct State {
    /// How many values there are.
    pub range: u8,
    /// The writes of each word, in order.
    pub rows: Vec<Vec<Write>>,
    /// The view of each thread.
    pub views: Vec<View>,
    pub registers: Vec<u8>,
    /// The point of each thread.
    pub points: Vec<u8>,
}

impl State {
    /// The start state in which open registers hold 0 too.
    pub fn start(header: &Header) -> State {
        let first = |&value: &u8| {
            vec![Write { value, releasing: false, covered: false, stored: View::default() }]
        };
        let threads = usize::from(header.counts.threads);
        State {
            range: header.counts.range,
            rows: header.start.iter().map(first).collect(),
            views: vec![View::default(); threads],
            registers: vec![0; header.owners.len()],
            points: vec![0; threads],
        }
    }

    /// Start states: all of them, if they are not more than `most`, else so many, each a choice of its own for the open
    /// registers or one that came before. The first has zeros.
    pub fn starts(header: &Header, most: usize) -> impl Iterator<Item = State> + '_ {
        let choices = Choices::of(header);
        let numbers = 0..choices.count.min(most as u128);
        numbers.map(move |number| choices.start(header, number, most))
    }

    /// Whether there are start states that `starts` leaves out.
    pub fn has_more_starts(header: &Header, most: usize) -> bool {
        Choices::of(header).count > most as u128
    }

    /// Whether this is one of the start states.
    pub fn is_start(&self, header: &Header) -> bool {
        let permitted = (1..).zip(&self.registers).all(|(register, &value)| {
            value < header.counts.range && (value == 0 || !header.is_cleared(register))
        });
        let cleared = State { registers: vec![0; self.registers.len()], ..self.clone() };
        permitted && cleared == State::start(header)
    }

    /// The row of a word; words count from 1.
    pub fn row(&self, word: u8) -> &[Write] {
        &self.rows[usize::from(word) - 1]
    }

    /// The view of a thread; threads count from 1.
    pub fn view(&self, thread: u8) -> View {
        self.views[usize::from(thread) - 1]
    }

    /// Whether both threads are at their points.
    pub fn has_meeting(&self, meeting: &Meeting) -> bool {
        let at = |thread: u8, point: u8| self.points[usize::from(thread) - 1] == point;
        at(meeting.thread, meeting.point) && at(meeting.other_thread, meeting.other_point)
    }

    /// What a test sees of the state at a view.
    pub fn seen_at(&self, view: View) -> Seen<'_> {
        Seen { state: self, view }
    }
}

/// The choices of a value for each open register.
struct Choices {
    /// The open registers, counted from 0.
    open: Vec<usize>,
    count: u128,
}

impl Choices {
    /// An odd number without a pattern, to spread numbers over all choices.
    const SPREAD: u128 = 0x9E37_79B9_7F4A_7C15;

    fn of(header: &Header) -> Choices {
        let open: Vec<usize> =
            (0..header.marks.len()).filter(|&register| header.marks[register] == 0).collect();
        let count = u128::from(header.counts.range).pow(open.len() as u32);
        Choices { open, count }
    }

    /// The start state with this number: the values are its digits, spread if not all are taken.
    fn start(&self, header: &Header, number: u128, most: usize) -> State {
        let range = u128::from(header.counts.range);
        let spread = self.count > most as u128;
        let mut digits = if spread { number * Choices::SPREAD % self.count } else { number };
        let mut state = State::start(header);
        for &register in &self.open {
            state.registers[register] = (digits % range) as u8;
            digits /= range;
        }
        state
    }
}

/// A state at one view.
pub struct Seen<'a> {
    state: &'a State,
    view: View,
}

impl Seen<'_> {
    /// The write of a word that the view names.
    fn write(&self, word: u8) -> &Write {
        &self.state.row(word)[usize::from(self.view.at(word))]
    }
}

impl Environment for Seen<'_> {
    fn range(&self) -> u8 {
        self.state.range
    }

    fn register(&self, register: u8) -> u8 {
        self.state.registers[usize::from(register) - 1]
    }

    fn word(&self, word: u8) -> u8 {
        self.write(word).value
    }

    fn unsync(&self, word: u8) -> bool {
        let write = self.write(word);
        write.releasing && write.stored.later_somewhere(&self.view)
    }

    fn covered(&self, word: u8) -> bool {
        self.write(word).covered
    }
}
