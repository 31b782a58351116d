//! States that a search has reached, kept as bytes: some dozens for each state, where the state itself takes a thousand.

use crate::machine::{State, View, Write, WORDS};
use std::hash::Hasher;

/// States are kept in pieces of so many bytes, so that no piece is ever moved. A state is shorter than that.
const PIECE: usize = 1 << 20;

/// So many bytes of states are kept: the same on every machine, and with all that belongs to them under a gigabyte.
pub const ROOM: usize = 512 * PIECE;

const FREE: u32 = u32::MAX;
const RELEASING: u8 = 0x40;
const COVERED: u8 = 0x80;

/// How many words, threads and registers the states have, and how many values.
#[derive(Clone, Copy)]
struct Shape {
    words: usize,
    threads: usize,
    registers: usize,
    range: u8,
}

/// Different states, numbered from 0 in the order in which they were added.
pub(super) struct Store {
    shape: Option<Shape>,
    pieces: Vec<Vec<u8>>,
    /// Where the bytes of each state begin: the piece and the place in it.
    places: Vec<u32>,
    /// Numbers of states, each at or behind the slot that its bytes lead to; a power of two of them, at least half free.
    slots: Vec<u32>,
    room: usize,
    /// The bytes of the state that is looked for.
    sought: Vec<u8>,
}

/// What became of a state that was handed to the store.
#[derive(Clone, Copy, Debug, PartialEq, Eq)]
pub(super) enum Added {
    New,
    Known,
    /// It is not known, and there is no room for it.
    NoRoom,
}

impl Store {
    pub(super) fn new(room: usize) -> Store {
        let (pieces, places, sought) = (Vec::new(), Vec::new(), Vec::new());
        Store { shape: None, pieces, places, slots: vec![FREE; 1 << 10], room, sought }
    }

    pub(super) fn len(&self) -> usize {
        self.places.len()
    }

    /// Adds a state unless it is there already, or there are `most` states, or no room is left.
    pub(super) fn add(&mut self, state: &State, most: usize) -> Added {
        self.shape.get_or_insert_with(|| Shape::of(state));
        self.sought.clear();
        put(state, &mut self.sought);
        let Err(slot) = self.slot_of(&self.sought) else { return Added::Known };
        let used =
            self.pieces.len().saturating_sub(1) * PIECE + self.pieces.last().map_or(0, Vec::len);
        if self.len() >= most || used + self.sought.len() > self.room {
            return Added::NoRoom;
        }
        self.slots[slot] = self.places.len() as u32;
        let place = self.keep();
        self.places.push(place);
        if 2 * self.places.len() > self.slots.len() {
            self.widen();
        }
        Added::New
    }

    /// Whether a state is there.
    pub(super) fn knows(&mut self, state: &State) -> bool {
        self.sought.clear();
        put(state, &mut self.sought);
        self.slot_of(&self.sought).is_ok()
    }

    /// The state with a number.
    pub(super) fn state(&self, number: usize) -> State {
        let shape = self.shape.expect("a state was added");
        shape.state(self.bytes(number))
    }

    /// Copies the bytes that were looked for behind those of the other states; where they begin.
    fn keep(&mut self) -> u32 {
        if self.pieces.last().is_none_or(|piece| piece.len() + self.sought.len() > PIECE) {
            self.pieces.push(Vec::with_capacity(PIECE));
        }
        let number = self.pieces.len() - 1;
        let piece = &mut self.pieces[number];
        let place = number * PIECE + piece.len();
        piece.extend_from_slice(&self.sought);
        place as u32
    }

    /// The bytes from where a state begins; others follow behind them.
    fn bytes(&self, number: usize) -> &[u8] {
        let place = self.places[number] as usize;
        &self.pieces[place / PIECE][place % PIECE..]
    }

    /// The slot that has the state with these bytes, or else the free one where it would be.
    fn slot_of(&self, bytes: &[u8]) -> Result<usize, usize> {
        let mut slot = hash(bytes) as usize & (self.slots.len() - 1);
        loop {
            match self.slots[slot] {
                FREE => return Err(slot),
                number if self.bytes(number as usize).starts_with(bytes) => return Ok(slot),
                _ => slot = (slot + 1) & (self.slots.len() - 1),
            }
        }
    }

    /// Twice as many slots.
    fn widen(&mut self) {
        self.slots = vec![FREE; 2 * self.slots.len()];
        let shape = self.shape.expect("a state was added");
        for number in 0..self.places.len() {
            let bytes = self.bytes(number);
            let slot = self.slot_of(&bytes[..shape.length(bytes)]).expect_err("states differ");
            self.slots[slot] = number as u32;
        }
    }
}

/// The hasher of the standard library without its random keys.
fn hash(bytes: &[u8]) -> u64 {
    let mut hasher = std::collections::hash_map::DefaultHasher::new();
    hasher.write(bytes);
    hasher.finish()
}

/// The bytes of a state: points, registers, views; then for each word how many writes follow the first, and the writes.
/// Lengths stand before what they count, so no state's bytes are the front of another's.
fn put(state: &State, bytes: &mut Vec<u8>) {
    let words = state.rows.len();
    bytes.extend_from_slice(&state.points);
    bytes.extend_from_slice(&state.registers);
    for view in &state.views {
        bytes.extend_from_slice(&view.0[..words]);
    }
    for row in &state.rows {
        bytes.push((row.len() - 1) as u8);
        for write in row {
            let marks = if write.releasing { RELEASING } else { 0 };
            let marks = marks | if write.covered { COVERED } else { 0 };
            bytes.push(write.value | marks);
            bytes.extend_from_slice(&write.stored.0[..words]);
        }
    }
}

impl Shape {
    fn of(state: &State) -> Shape {
        let (words, threads) = (state.rows.len(), state.views.len());
        Shape { words, threads, registers: state.registers.len(), range: state.range }
    }

    /// Where the rows begin.
    fn front(&self) -> usize {
        self.threads + self.registers + self.threads * self.words
    }

    /// How many bytes the state has that these begin with.
    fn length(&self, bytes: &[u8]) -> usize {
        (0..self.words)
            .fold(self.front(), |at, _| at + 1 + (usize::from(bytes[at]) + 1) * (1 + self.words))
    }

    fn view(&self, bytes: &[u8]) -> View {
        let mut view = [0; WORDS];
        view[..self.words].copy_from_slice(&bytes[..self.words]);
        View(view)
    }

    /// The state that these bytes begin with.
    fn state(&self, bytes: &[u8]) -> State {
        let (points, rest) = bytes.split_at(self.threads);
        let (registers, rest) = rest.split_at(self.registers);
        let (views, mut rest) = rest.split_at(self.threads * self.words);
        let mut rows = Vec::with_capacity(self.words);
        for _ in 0..self.words {
            let count = usize::from(rest[0]) + 1;
            let (row, behind) = rest[1..].split_at(count * (1 + self.words));
            rows.push(row.chunks_exact(1 + self.words).map(|write| self.write(write)).collect());
            rest = behind;
        }
        State {
            range: self.range,
            rows,
            views: views.chunks_exact(self.words).map(|view| self.view(view)).collect(),
            registers: registers.to_vec(),
            points: points.to_vec(),
        }
    }

    fn write(&self, bytes: &[u8]) -> Write {
        let marks = bytes[0];
        Write {
            value: marks & !(RELEASING | COVERED),
            releasing: marks & RELEASING != 0,
            covered: marks & COVERED != 0,
            stored: self.view(&bytes[1..]),
        }
    }
}

#[cfg(test)]
mod tests {
    use super::*;

    /// Two words, two threads, two registers, with so many writes in the second row.
    fn state(number: u8, writes: usize) -> State {
        let view = |a, b| View::default().moved(1, a).moved(2, b);
        let write =
            |value, releasing, covered| Write { value, releasing, covered, stored: view(0, value) };
        State {
            range: 16,
            rows: vec![
                vec![write(number % 16, false, true)],
                vec![write(15, true, number.is_multiple_of(2)); writes],
            ],
            views: vec![view(0, number % 3), view(0, 1)],
            registers: vec![number, number / 16],
            points: vec![number / 7, 3],
        }
    }

    #[test]
    fn states_come_back_as_they_were() {
        let mut store = Store::new(ROOM);
        let states: Vec<State> = (0..=255)
            .flat_map(|number| [1, 2, 200, 256].map(|writes| state(number, writes)))
            .collect();
        for (number, state) in states.iter().enumerate() {
            assert!(!store.knows(state));
            assert_eq!(store.add(state, usize::MAX), Added::New);
            assert_eq!((store.len(), store.knows(state)), (number + 1, true));
        }
        for (number, state) in states.iter().enumerate() {
            assert_eq!(store.state(number), *state);
            assert_eq!(store.add(state, usize::MAX), Added::Known);
        }
        assert!(store.pieces.len() == 1 && store.slots.len() == 2048);
        assert_eq!(store.len(), states.len());
    }

    #[test]
    fn what_has_no_room_is_not_added() {
        let bytes = 2 + 2 + 4 + 2 + 3 + 3 * 5;
        let mut store = Store::new(3 * bytes);
        for number in 0..3 {
            assert_eq!(store.add(&state(number, 5), 10), Added::New);
        }
        assert_eq!(store.add(&state(3, 5), 10), Added::NoRoom);
        assert_eq!(store.add(&state(2, 5), 10), Added::Known);
        let mut few = Store::new(ROOM);
        assert_eq!(few.add(&state(0, 1), 1), Added::New);
        assert_eq!(few.add(&state(1, 1), 1), Added::NoRoom);
        assert_eq!((few.add(&state(0, 1), 1), few.len()), (Added::Known, 1));
    }
}
