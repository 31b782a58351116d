//! Random headers and programs.

use super::random::Random;
use super::vocabulary::Vocabulary;
use reference::checker::limits;
use reference::formula::parse::Counts;
use reference::formula::Value;
use reference::image::{Access, Header, Instruction, Note, Thread};
use std::rc::Rc;

/// A header; most are small, some use every name.
pub fn header(random: &mut Random) -> Header {
    let large = random.chance(8);
    let threads = random.between(1, limits::THREADS);
    let words = if large { limits::WORDS } else { random.between(1, 3) };
    let registers = if large { limits::REGISTERS } else { random.between(0, 4) };
    // Every range, and most often the usual one and both ends.
    let range = if random.chance(40) { random.between(2, 16) } else { *random.pick(&[8, 2, 16]) };
    let start = (0..words).map(|_| random.between(0, range - 1)).collect();
    let owners = (0..registers).map(|_| random.between(1, threads)).collect();
    let marks = (0..registers).map(|_| u8::from(random.chance(65))).collect();
    Header { counts: Counts { threads, words, registers, range }, start, owners, marks }
}

/// The registers that a thread owns.
fn own_registers(header: &Header, thread: u8) -> Vec<u8> {
    (1..).zip(&header.owners).filter(|(_, &owner)| owner == thread).map(|(r, _)| r).collect()
}

/// An instruction with one of these operations; `None` if the thread owns no
/// register and the operation chosen needs one.
pub fn instruction(
    random: &mut Random,
    header: &Header,
    thread: u8,
    points: u8,
    operations: &[u8],
) -> Option<Instruction> {
    let operation = *random.pick(operations);
    let own = Vocabulary::of(header).own(thread, header);
    let registers = own_registers(header, thread);
    let word = random.between(1, header.counts.words);
    Some(match operation {
        0 => {
            let note = note(random, &own, &registers)?;
            Instruction::assign(note.register, note.value)
        }
        1 | 2 => {
            let register = *random.pick(some(&registers)?);
            Access::Load { register, word, acquiring: operation == 2 }.into()
        }
        3..=5 => write(operation, word, own.value(random, 2)).into(),
        6 => {
            let target = random.between(0, points - 1);
            Instruction::Branch { test: own.test(random, 2), target }
        }
        7 | 8 => {
            let register = *random.pick(some(&registers)?);
            let value = operand(random, own, register);
            match operation {
                7 => Access::Exchange { register, word, value }.into(),
                _ => Access::FetchAdd { register, word, value }.into(),
            }
        }
        9..=11 => {
            let access = write(operation - 6, word, own.value(random, 2));
            Instruction::pair(access, note(random, &own, &registers)?)
        }
        _ => trade(random, &own, &registers)?,
    })
}

/// Operations 3 to 5.
fn write(operation: u8, word: u8, value: Rc<Value>) -> Access {
    match operation {
        5 => Access::Swap { word, value },
        _ => Access::Store { word, value, releasing: operation == 4 },
    }
}

fn note(random: &mut Random, own: &Vocabulary, registers: &[u8]) -> Option<Note> {
    let register = *random.pick(some(registers)?);
    Some(Note::new(register, own.value(random, 2)))
}

/// Two assignments at once; now and then to the same register, which is a fault.
fn trade(random: &mut Random, own: &Vocabulary, registers: &[u8]) -> Option<Instruction> {
    let first = note(random, own, registers)?;
    let others: Vec<u8> = registers.iter().copied().filter(|r| *r != first.register).collect();
    let faulty = random.chance(3);
    let second = note(random, own, if faulty { registers } else { &others })?;
    Some(Instruction::trade(first, second))
}

/// The operand of an exchange or fetch-add; now and then it may name the result register, which is a fault.
fn operand(random: &mut Random, own: Vocabulary, register: u8) -> Rc<Value> {
    let faulty = random.chance(4);
    let names = if faulty { own } else { own.without_register(register) };
    names.value(random, 2)
}

/// The list, if it has an item.
fn some(items: &[u8]) -> Option<&[u8]> {
    (!items.is_empty()).then_some(items)
}

/// A thread with this many points and any instructions.
pub fn thread(random: &mut Random, header: &Header, thread: u8, points: u8) -> Thread {
    let any = [0, 1, 2, 3, 4, 5, 6, 7, 8, 9, 10, 11, 12];
    let without_register = [3, 4, 5, 6];
    (1..points)
        .map(|_| {
            instruction(random, header, thread, points, &any)
                .or_else(|| instruction(random, header, thread, points, &without_register))
                .expect("no register is needed")
        })
        .collect()
}
