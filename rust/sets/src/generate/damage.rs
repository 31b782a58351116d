//! Damage to the records and bytes of an image.

use super::random::Random;
use reference::checker::limits;
use reference::image::written::{image_bytes, Record};

/// The bytes of the records with one or two faults put in.
pub fn damaged(random: &mut Random, mut records: Vec<Record>) -> Vec<u8> {
    if random.chance(85) {
        edit_records(random, &mut records);
    }
    if random.chance(20) {
        edit_records(random, &mut records);
    }
    let mut bytes = image_bytes(&records);
    if random.chance(25) {
        edit_bytes(random, &mut bytes);
    }
    bytes
}

/// One change of a record or of the order of records.
fn edit_records(random: &mut Random, records: &mut Vec<Record>) {
    if records.is_empty() {
        return;
    }
    let index = random.below(records.len());
    match random.below(12) {
        0 => records[index].kind = u16::from(random.between(0, 9)),
        1 => {
            records.remove(index);
        }
        2 => records.insert(index, records[index].clone()),
        3 => records.swap(index, 0),
        4 => edit_length(random, &mut records[index].body),
        5 => set_owner_or_mark(random, &mut records[0].body),
        6..=8 => edit_of_kind(random, records),
        _ => edit_body(random, &mut records[index].body),
    }
}

/// Changes a body of a kind chosen first, so that rare kinds are met too.
fn edit_of_kind(random: &mut Random, records: &mut [Record]) {
    let kind = *random.pick(&[1, 2, 3, 4, 5, 6, 8]);
    let of_kind: Vec<usize> =
        (0..records.len()).filter(|&index| records[index].kind == kind).collect();
    if !of_kind.is_empty() {
        let index = *random.pick(&of_kind);
        edit_body(random, &mut records[index].body);
    }
}

fn edit_length(random: &mut Random, body: &mut Vec<u8>) {
    match random.below(3) {
        0 => body.push(random.between(0, 3)),
        1 => {
            body.pop();
        }
        _ => body.resize(if random.chance(50) { 256 } else { 0 }, 11),
    }
}

fn edit_body(random: &mut Random, body: &mut [u8]) {
    if body.is_empty() {
        return;
    }
    let place = random.below(body.len());
    body[place] = match random.below(4) {
        0 => body[place].wrapping_add(1),
        1 => body[place].wrapping_sub(1),
        2 => random.between(0, 30),
        _ => random.between(0, 255),
    };
}

/// Gives a register to another thread, which tells in instructions, or another start mark, which tells in rule 27.
fn set_owner_or_mark(random: &mut Random, header: &mut [u8]) {
    let &mut [threads, words, registers, _, ..] = header else {
        return;
    };
    let (owners, registers) = (4 + usize::from(words), usize::from(registers));
    if registers == 0 || header.len() < owners + 2 * registers {
        return;
    }
    let owner = owners + random.below(registers);
    if random.chance(65) {
        header[owner] = random.between(1, threads.clamp(1, limits::THREADS));
    } else {
        header[owner + registers] = random.between(0, 2);
    }
}

/// One change of the bytes that pays no heed to records.
fn edit_bytes(random: &mut Random, bytes: &mut Vec<u8>) {
    if bytes.is_empty() {
        return;
    }
    let place = random.below(bytes.len());
    match random.below(6) {
        0 => bytes.truncate(place),
        1 => bytes.push(random.between(0, 7)),
        2 => bytes.insert(place, random.between(0, 30)),
        3 => {
            bytes.remove(place);
        }
        4 => bytes.resize(limits::IMAGE_BYTES + random.below(2), 0),
        _ => bytes[place] = random.between(0, 255),
    }
}
