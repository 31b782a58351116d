//! Formulas at and beyond the deepest nesting, 16.

/// A formula with its label.
type Nested = (String, Vec<u8>);

/// A name, and the bytes before, in and behind the middle of a nested formula.
type Tower = (&'static str, &'static [u8], &'static [u8], &'static [u8]);

/// Ways to nest a formula in others of its own sort.
const TOWERS: [Tower; 11] = [
    ("left sums", &[3], &[0, 1], &[0, 2]),
    ("right sums", &[3, 0, 2], &[0, 1], &[]),
    ("negations", &[11], &[8], &[]),
    ("left conjunctions", &[12], &[8], &[8]),
    ("right disjunctions", &[13, 8], &[8], &[]),
    ("left chops", &[18], &[17, 1], &[17, 2]),
    ("right chops", &[18, 17, 2], &[17, 1], &[]),
    ("right joined intervals", &[19, 17, 2], &[17, 1], &[]),
    ("left choices of intervals", &[20], &[17, 1], &[17, 2]),
    ("left joined assertions", &[25], &[27], &[27]),
    ("right choices of assertions", &[26, 27], &[27], &[]),
];

/// Each code with one part that has a part of its own.
const PARTS: [Tower; 24] = [
    ("first part of 3", &[3], &[3, 3, 0, 1, 0, 1, 0, 1], &[0, 2]),
    ("second part of 3", &[3], &[3, 0, 1, 3, 0, 1, 0, 1], &[0, 2]),
    ("first part of 9", &[11], &[9, 3, 0, 1, 0, 1, 0, 1], &[]),
    ("second part of 9", &[11], &[9, 0, 1, 3, 0, 1, 0, 1], &[]),
    ("first part of 10", &[11], &[10, 3, 0, 1, 0, 1, 0, 1], &[]),
    ("second part of 10", &[11], &[10, 0, 1, 3, 0, 1, 0, 1], &[]),
    ("part of 11", &[12], &[11, 11, 8], &[8]),
    ("first part of 12", &[11], &[12, 11, 8, 8], &[]),
    ("second part of 12", &[11], &[12, 8, 11, 8], &[]),
    ("first part of 13", &[11], &[13, 11, 8, 8], &[]),
    ("second part of 13", &[11], &[13, 8, 11, 8], &[]),
    ("part of 16", &[18], &[16, 11, 8], &[17, 1]),
    ("first part of 18", &[19], &[18, 16, 8, 17, 1], &[17, 1]),
    ("second part of 18", &[19], &[18, 17, 1, 16, 8], &[17, 1]),
    ("first part of 19", &[20], &[19, 16, 8, 17, 1], &[17, 1]),
    ("second part of 19", &[20], &[19, 17, 1, 16, 8], &[17, 1]),
    ("first part of 20", &[18], &[20, 16, 8, 17, 1], &[17, 1]),
    ("second part of 20", &[18], &[20, 17, 1, 16, 8], &[17, 1]),
    ("part of 24", &[25], &[24, 1, 16, 8], &[27]),
    ("first part of 25", &[26], &[25, 28, 8, 27], &[27]),
    ("second part of 25", &[26], &[25, 27, 28, 8], &[27]),
    ("first part of 26", &[25], &[26, 28, 8, 27], &[27]),
    ("second part of 26", &[25], &[26, 27, 28, 8], &[27]),
    ("part of 28", &[25], &[28, 11, 8], &[27]),
];

/// All cases.
pub fn cases() -> Vec<Nested> {
    let mut cases = Vec::new();
    for tower in TOWERS {
        for depth in [15, 16, 17, 18] {
            cases.push((format!("nesting {depth} by {}", tower.0), nested(tower, depth)));
        }
    }
    for part in PARTS {
        for depth in [14, 15] {
            let label = format!("nesting {} in the {}", depth + 2, part.0);
            cases.push((label, nested(part, depth)));
        }
    }
    cases.extend(with_other_faults());
    cases
}

/// The formula in which the middle has this depth, wrapped again and again.
fn nested((_, before, middle, behind): Tower, depth: usize) -> Vec<u8> {
    [before.repeat(depth - 1), middle.to_vec(), behind.repeat(depth - 1)].concat()
}

fn with_other_faults() -> Vec<Nested> {
    let conjunctions = |last: &'static [u8], depth| nested(("", &[12], last, &[8]), depth);
    let operand_first = [&[12, 14, 9], &conjunctions(&[8], 16)[..]].concat();
    [
        ("nesting 17 at an unknown code", conjunctions(&[5], 17)),
        ("nesting 17 where bytes end", [12].repeat(16)),
        ("nesting 17 before a bad operand", conjunctions(&[14, 9], 17)),
        ("a bad operand before nesting 17", operand_first),
        ("a bad operand at nesting 16", conjunctions(&[14, 9], 16)),
    ]
    .map(|(label, formula)| (label.to_string(), formula))
    .into()
}
