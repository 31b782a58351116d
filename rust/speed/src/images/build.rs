//! Random images whose bytes are in order. Their lines follow from nothing; the readers do not ask.

use super::reader::{has_register, ByScan};
use crate::formulas::generate::{append, Names, LONGEST};
use crate::random::Random;
use reference::checker::obligations::duties;
use reference::formula::parse::Counts;
use reference::formula::{Test, Value};
use reference::image::written::{Half, Instruction, Line, Written};
use reference::image::{self, Claim, Header, Meeting, Thread};

/// How much an image holds.
pub struct Size {
    pub threads: usize,
    pub words: usize,
    pub registers: usize,
    pub range: u8,
    /// At most so many points in each thread.
    pub points: usize,
    pub formulas: usize,
    pub lines: usize,
    /// How long its assertions are, about: each is joined from shorter ones until it is.
    pub assertion: usize,
}

impl Size {
    /// As much as there may be.
    pub const LARGEST: Size = Size {
        threads: 4,
        words: 8,
        registers: 16,
        range: 8,
        points: 16,
        formulas: 500,
        lines: 4000,
        assertion: 150,
    };

    /// A few hundred bytes.
    pub fn small(random: &mut Random) -> Size {
        let threads = 1 + random.below(4);
        let most_points = if random.below(20) == 0 { 16 } else { 8 };
        Size {
            threads,
            words: 1 + random.below(8),
            registers: random.below(17),
            range: 2 + random.below(15) as u8,
            points: 1 + random.below(most_points),
            formulas: 2 * threads + 2 + random.below(8),
            lines: 1 + random.below(8),
            assertion: 1 + random.below(20),
        }
    }
}

/// The sorts of formulas.
const VALUE: u8 = 0;
const TEST: u8 = 1;
const INTERVAL: u8 = 2;
const ASSERTION: u8 = 3;

/// Those that set a register stand behind the others.
const ACTION: [u8; 12] = [3, 4, 5, 0, 1, 2, 7, 8, 9, 10, 11, 12];
/// The rules whose lines are triples.
const TRIPLES: [u8; 20] = [1, 2, 3, 4, 5, 6, 7, 8, 9, 10, 11, 12, 13, 14, 15, 16, 47, 48, 49, 50];

const SWAP: u8 = 5;
const BRANCH: u8 = 6;
const TRADE: u8 = 12;

/// A formula that fits in a record.
fn formula(random: &mut Random, names: &Names, sort: u8, plain: bool, left: usize) -> Vec<u8> {
    loop {
        let mut bytes = Vec::new();
        append(random, names, sort, plain, left, &mut bytes);
        if bytes.len() <= LONGEST {
            return bytes;
        }
    }
}

/// An assertion of at least so many bytes, or as many as five joined ones have.
fn assertion(random: &mut Random, names: &Names, least: usize) -> Vec<u8> {
    loop {
        let mut bytes = formula(random, names, ASSERTION, false, 10);
        for _ in 0..4 {
            if bytes.len() < least {
                let left = formula(random, names, ASSERTION, false, 10);
                bytes = [&[25 + random.below(2) as u8], &left[..], &bytes].concat();
            }
        }
        if bytes.len() <= LONGEST {
            return bytes;
        }
    }
}

/// A program with formulas for its instructions, its outline and its lines. Formula numbers, from 1:
/// for each thread a value and a test; then an interval; then assertions without `start` and, last, of
/// which a quarter may have it.
struct Program<'a> {
    size: &'a Size,
    owners: Vec<u8>,
    /// Each thread's operations.
    threads: Vec<Vec<u8>>,
}

impl Program<'_> {
    fn new<'a>(random: &mut Random, size: &'a Size) -> Program<'a> {
        let owner = |random: &mut Random| 1 + random.below(size.threads) as u8;
        let owners: Vec<u8> = (0..size.registers).map(|_| owner(random)).collect();
        let threads = (1..=size.threads).map(|thread| {
            let owned = owners.contains(&(thread as u8));
            let steps = random.below(size.points);
            let actions = if owned { &ACTION[..] } else { &ACTION[..3] };
            let operation = |random: &mut Random| match random.below(4) {
                0 => BRANCH,
                _ => actions[random.below(actions.len())],
            };
            (0..steps).map(|_| operation(random)).collect()
        });
        let threads = threads.collect();
        Program { size, owners, threads }
    }

    fn registers_of(&self, thread: usize) -> Vec<u8> {
        (1..)
            .zip(&self.owners)
            .filter(|(_, &owner)| owner as usize == thread)
            .map(|(r, _)| r)
            .collect()
    }

    fn names(&self, registers: Vec<u8>, start: bool) -> Names {
        let Size { threads, words, range, .. } = *self.size;
        Names { threads: threads as u8, words: words as u8, registers, range, start }
    }

    fn header(&self, random: &mut Random) -> Header {
        let Size { threads, words, registers, range, .. } = *self.size;
        let [threads, words, registers] = [threads, words, registers].map(|count| count as u8);
        let counts = Counts { threads, words, registers, range };
        let start = (0..words).map(|_| random.below(range.into()) as u8).collect();
        let marks = (0..registers).map(|_| random.below(2) as u8).collect();
        Header { counts, start, owners: self.owners.clone(), marks }
    }

    /// The number of the interval; assertions follow.
    fn interval(&self) -> usize {
        2 * self.size.threads + 1
    }

    /// How many assertions have no `start`.
    fn startless(&self) -> usize {
        let assertions = self.size.formulas - self.interval();
        assertions - assertions / 4
    }

    fn formulas(&self, random: &mut Random) -> Vec<Vec<u8>> {
        let mut formulas = Vec::new();
        for thread in 1..=self.size.threads {
            let own = self.names(self.registers_of(thread), true);
            formulas.push(formula(random, &own, VALUE, true, 6));
            formulas.push(formula(random, &own, TEST, true, 6));
        }
        let all: Vec<u8> = (1..=self.size.registers as u8).collect();
        let any = self.names(all.clone(), true);
        let startless = self.names(all, false);
        formulas.push(formula(random, &any, INTERVAL, false, 10));
        for i in 0..self.size.formulas - self.interval() {
            let names = if i < self.startless() { &startless } else { &any };
            formulas.push(assertion(random, names, self.size.assertion));
        }
        formulas
    }

    fn thread(&self, random: &mut Random, thread: usize, formulas: &[Vec<u8>]) -> Vec<Instruction> {
        let operations = &self.threads[thread - 1];
        let registers = self.registers_of(thread);
        let points = operations.len() + 1;
        let value = 2 * thread as u16 - 1;
        // An exchange or fetch-add does not name its result register in its operand.
        let operand = &formulas[usize::from(value) - 1];
        let free = |register: &u8| !has_register::<ByScan>(operand, *register);
        let free: Vec<u8> = registers.iter().copied().filter(free).collect();
        let instruction = |&operation: &u8| {
            let word = 1 + random.below(self.size.words) as u8;
            let mut register = |from: &[u8]| from[random.below(from.len())];
            let (operation, a, b, formula) = match operation {
                TRADE if registers.len() < 2 => (0, register(&registers), 0, value),
                0 | TRADE => (operation, register(&registers), 0, value),
                1 | 2 => (operation, register(&registers), word, 0),
                7 | 8 if free.is_empty() => (SWAP, word, 0, value),
                7 | 8 => (operation, word, register(&free), value),
                BRANCH => (BRANCH, random.below(points) as u8, 0, value + 1),
                _ => (operation, word, 0, value),
            };
            let first = Half { operation, a, b, formula };
            let free = |r: &u8| operation != TRADE || *r != a;
            let others: Vec<u8> = registers.iter().copied().filter(free).collect();
            let noted = || Half {
                operation: 0,
                a: others[random.below(others.len())],
                b: 0,
                formula: value,
            };
            Instruction { first, second: (9..=TRADE).contains(&operation).then(noted) }
        };
        operations.iter().map(instruction).collect()
    }

    /// The number of an assertion, with or without `start`.
    fn any_assertion(&self, random: &mut Random) -> u16 {
        let behind = self.interval();
        (behind + 1 + random.below(self.size.formulas - behind)) as u16
    }

    fn startless_assertion(&self, random: &mut Random) -> u16 {
        (self.interval() + 1 + random.below(self.startless())) as u16
    }

    fn outline(&self, random: &mut Random) -> Vec<u16> {
        let points: usize = self.threads.iter().map(|operations| operations.len() + 1).sum();
        (0..points).map(|_| self.startless_assertion(random)).collect()
    }

    /// Thread and point of each instruction that is no branch.
    fn actions(&self) -> Vec<[u8; 2]> {
        let of_thread = |(thread, operations): (u8, &Vec<u8>)| -> Vec<[u8; 2]> {
            let actions = (0..).zip(operations).filter(|(_, &operation)| operation != BRANCH);
            actions.map(|(point, _)| [thread, point]).collect()
        };
        (1..).zip(&self.threads).flat_map(of_thread).collect()
    }

    /// The line that has so many before it. Half of the lines are triples, where there are actions.
    fn line(&self, random: &mut Random, before: usize, actions: &[[u8; 2]]) -> Line {
        let (rule, [thread, point], left, right) = match random.below(8) {
            0 => (
                30 + random.below(17) as u8,
                [0, 0],
                self.interval() as u16,
                self.interval() as u16,
            ),
            4.. if !actions.is_empty() => {
                let place = actions[random.below(actions.len())];
                let side = |random: &mut Random| self.startless_assertion(random);
                (TRIPLES[random.below(TRIPLES.len())], place, side(random), side(random))
            }
            _ => {
                let side = |random: &mut Random| self.any_assertion(random);
                (20 + random.below(8) as u8, [0, 0], side(random), side(random))
            }
        };
        let premises = if before == 0 { 0 } else { random.below(5) };
        let premises = (0..premises).map(|_| 1 + random.below(before) as u16).collect();
        Line { rule, thread, point, left, right, premises }
    }

    /// A few claims, or as many as there may be, where there are two threads.
    fn claims(&self, random: &mut Random) -> Vec<Claim> {
        let threads = self.size.threads;
        let count = match random.below(8) {
            _ if threads < 2 => 0,
            0 => 16,
            _ => random.below(3),
        };
        let point = |random: &mut Random, t: usize| random.below(self.threads[t].len() + 1) as u8;
        let claim = |_| {
            let first = random.below(threads);
            let other = (first + 1 + random.below(threads - 1)) % threads;
            let meeting = Meeting {
                thread: first as u8 + 1,
                point: point(random, first),
                other_thread: other as u8 + 1,
                other_point: point(random, other),
            };
            Claim { meeting, line: random.below(self.size.lines + 1) as u16 }
        };
        (0..count).map(claim).collect()
    }

    /// A line number for each obligation. How many there are goes by the branches alone.
    fn obligations(&self, random: &mut Random) -> Vec<u16> {
        let stand_in = |&operation: &u8| match operation {
            BRANCH => image::Instruction::Branch { test: Test::False.into(), target: 0 },
            _ => image::Instruction::assign(1, Value::Constant(0)),
        };
        let code = |operations: &Vec<u8>| operations.iter().map(stand_in).collect();
        let threads: Vec<Thread> = self.threads.iter().map(code).collect();
        let line = |_| random.below(self.size.lines + 1) as u16;
        duties(&threads).iter().map(line).collect()
    }
}

pub fn image(random: &mut Random, size: &Size) -> Vec<u8> {
    let program = Program::new(random, size);
    let actions = program.actions();
    let header = program.header(random);
    let formulas = program.formulas(random);
    let threads = (1..=size.threads).map(|thread| program.thread(random, thread, &formulas));
    // Fields are worked out in the order in which they stand here.
    let image = Written {
        header,
        threads: threads.collect(),
        formulas,
        outline: program.outline(random),
        lines: (0..size.lines).map(|before| program.line(random, before, &actions)).collect(),
        obligations: program.obligations(random),
        claims: program.claims(random),
    };
    image.bytes()
}

/// An image with 500 formulas and 4,000 lines, the longest of some tries.
pub fn largest(random: &mut Random) -> Vec<u8> {
    let images = (0..16).map(|_| image(random, &Size::LARGEST));
    images.max_by_key(Vec::len).expect("some tries")
}
