//! Random images, well formed but not proved, come back the same from `show` and `build`.

use outline::terms::*;
use outline::text::{parse_source, show};
use outline::{build, image};
use reference::checker::obligations::duties;
use reference::formula::encode::Encode;
use reference::formula::nesting::Nesting;
use reference::formula::parse::Counts;
use reference::formula::{Assertion, Formula, Interval, Test};
use reference::image::written::{Line, Written};
use reference::image::{Access, Claim, Header, Instruction, Meeting, Note, Thread};

/// A small generator of numbers, so that the test is the same every time.
struct Dice(u64);

impl Dice {
    fn roll(&mut self, n: usize) -> usize {
        self.0 = self.0.wrapping_mul(6364136223846793005).wrapping_add(1442695040888963407);
        (self.0 >> 33) as usize % n
    }
    fn number(&mut self, least: u8, most: u8) -> u8 {
        least + self.roll((most - least + 1) as usize) as u8
    }

    fn value(&mut self, depth: usize, words: bool) -> V {
        match self.roll(if depth == 0 { 3 } else { 5 }) {
            0 => constant(self.number(0, 7)),
            1 => register(self.number(1, 3)),
            2 if words => word(self.number(1, 2)),
            2 => register(1),
            _ => sum(&self.value(depth - 1, words), &self.value(depth - 1, words)),
        }
    }

    fn test(&mut self, depth: usize, words: bool) -> T {
        if depth == 0 {
            return falsehood();
        }
        let d = depth - 1;
        match self.roll(8) {
            0 => falsehood(),
            1 | 2 => equal(&self.value(1, words), &self.value(1, words)),
            3 => less(&self.value(1, words), &self.value(1, words)),
            4 => not(&self.test(d, words)),
            5 => and(&self.test(d, words), &self.test(d, words)),
            6 => or(&self.test(d, words), &self.test(d, words)),
            _ if words => Test::Unsync(self.number(1, 2)).into(),
            _ => truth(),
        }
    }

    fn interval(&mut self, depth: usize) -> I {
        if depth == 0 {
            return Interval::One(self.number(1, 2)).into();
        }
        let d = depth - 1;
        match self.roll(6) {
            0 => all(&self.test(2, true)),
            1 => Interval::one_equal(self.number(1, 2), self.value(1, true)).into(),
            2 => chop(&self.interval(d), &self.interval(d)),
            3 => both(&self.interval(d), &self.interval(d)),
            4 => either(&self.interval(d), &self.interval(d)),
            _ => all(&Test::Covered(self.number(1, 2)).into()),
        }
    }

    fn assertion(&mut self, depth: usize) -> A {
        if depth == 0 {
            return holds(&self.test(2, false));
        }
        let d = depth - 1;
        match self.roll(4) {
            0 => sees(self.number(1, 2), &self.interval(2)),
            1 => both(&self.assertion(d), &self.assertion(d)),
            2 => either(&self.assertion(d), &self.assertion(d)),
            _ => holds(&self.test(3, false)),
        }
    }
}

/// Two threads over two words and three registers, the second and third owned crosswise. Their operands
/// are formulas 1 to 3.
fn threads(number: &V, test: &T, three: &V) -> Vec<Thread> {
    let store = |releasing| Access::Store { word: 1, value: three.clone(), releasing };
    let swap = || Access::Swap { word: 2, value: three.clone() };
    let note = |register, value: &V| Note::new(register, value.clone());
    let first = vec![
        Access::Load { register: 1, word: 2, acquiring: true }.into(),
        Instruction::Branch { test: test.clone(), target: 0 },
        swap().into(),
        Instruction::trade(note(3, number), note(1, three)),
    ];
    let second = vec![
        Instruction::assign(2, number.clone()),
        store(true).into(),
        Access::Load { register: 2, word: 1, acquiring: false }.into(),
        Access::Exchange { register: 2, word: 1, value: three.clone() }.into(),
        Access::FetchAdd { register: 2, word: 2, value: number.clone() }.into(),
        Instruction::pair(store(false), note(2, number)),
        Instruction::pair(store(true), note(2, three)),
        Instruction::pair(swap(), note(2, number)),
    ];
    vec![first, second]
}

/// The operands of each instruction.
const OPERANDS: [&[&[u16]]; 2] =
    [&[&[], &[2], &[3], &[1, 3]], &[&[1], &[3], &[], &[3], &[1], &[3, 1], &[3, 3], &[3, 1]]];

/// A line about assertions, which are formulas 4 to 16.
fn line(dice: &mut Dice, before: usize) -> Line {
    let premises =
        (0..dice.roll(before.min(4) + 1)).map(|_| 1 + dice.roll(before) as u16).collect();
    let (rule, thread, point) = [(16, 2, 1), (20, 0, 0), (50, 2, 6), (1, 2, 7)][before % 4];
    let (left, right) = (4 + dice.roll(12) as u16, 4 + dice.roll(13) as u16);
    Line { rule, thread, point, left, right, premises }
}

/// A claim that names the threads in either order.
fn claim(dice: &mut Dice) -> Claim {
    let (first, second) = ((1, dice.number(0, 4)), (2, dice.number(0, 8)));
    let swapped = dice.roll(2) == 1;
    let [(thread, point), (other_thread, other_point)] =
        if swapped { [second, first] } else { [first, second] };
    let meeting = Meeting { thread, point, other_thread, other_point };
    Claim { meeting, line: dice.roll(11) as u16 }
}

fn formulas(dice: &mut Dice, operands: [Formula; 3]) -> Vec<Formula> {
    let mut formulas = operands.to_vec();
    for _ in 0..12 {
        let assertion = dice.assertion(3);
        let fits = assertion.fits_record();
        formulas.push(Formula::Assertion(if fits { assertion } else { holds(&truth()) }));
    }
    let twice = formulas[5].clone();
    formulas.extend([
        twice,
        Formula::Interval(dice.interval(3)),
        Formula::Test(dice.test(3, true)),
        Formula::Value(dice.value(3, true)),
        Assertion::Start.into(),
    ]);
    formulas
}

fn random_image(dice: &mut Dice) -> Written {
    let (number, three) = (constant(dice.number(0, 7)), constant(3));
    let test = equal(&register(1), &constant(1));
    let threads = threads(&number, &test, &three);
    let operands = [Formula::Value(number), Formula::Test(test), Formula::Value(three)];
    let fields = |(code, operands): (&Thread, &[&[u16]])| {
        code.iter().zip(operands).map(|(instruction, n)| instruction.fields(n)).collect()
    };
    let counts = Counts { threads: 2, words: 2, registers: 3, range: dice.number(8, 16) };
    let start = vec![dice.number(0, 7), 5];
    let marks = (0..3).map(|_| dice.number(0, 1)).collect();
    Written {
        header: Header { counts, start, owners: vec![1, 2, 1], marks },
        formulas: formulas(dice, operands).iter().map(Formula::encode).collect(),
        threads: threads.iter().zip(OPERANDS).map(fields).collect(),
        outline: (0..14).map(|_| 4 + dice.roll(12) as u16).collect(),
        lines: (0..10).map(|before| line(dice, before)).collect(),
        obligations: duties(&threads).iter().map(|_| dice.roll(11) as u16).collect(),
        claims: (0..dice.roll(17)).map(|_| claim(dice)).collect(),
    }
}

#[test]
fn any_image_comes_back_the_same() {
    let mut dice = Dice(7);
    for round in 0..300 {
        let bytes = random_image(&mut dice).bytes();
        let read = image::read(&bytes).expect("well formed");
        let text = show::show(&read);
        let source =
            parse_source::parse(&text).unwrap_or_else(|e| panic!("round {round}: {e}\n{text}"));
        let again = build::build(&source).unwrap_or_else(|e| panic!("round {round}: {e}")).image;
        assert_eq!(again.bytes(), bytes, "round {round}");
    }
}

#[test]
fn damaged_images_give_messages_and_no_panic() {
    let mut dice = Dice(11);
    let bytes = random_image(&mut dice).bytes();
    for at in 0..bytes.len() {
        for change in [1, 128, 255] {
            let mut damaged = bytes.clone();
            damaged[at] = damaged[at].wrapping_add(change);
            if let Ok(image) = image::read(&damaged) {
                let source =
                    parse_source::parse(&show::show(&image)).expect("what is shown is read");
                assert_eq!(build::build(&source).expect("built again").image.bytes(), damaged);
            }
        }
    }
}
