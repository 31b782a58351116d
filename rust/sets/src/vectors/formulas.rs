//! Formula byte strings, well formed and not, and small images that hold them.

use super::{nesting, Case};
use reference::checker::frames::{FORMULA, HEADER, LINE, OBLIGATIONS, OUTLINE, THREAD};
use reference::formula::parse::Counts;
use reference::image::written::{image_bytes, Record};

/// Formula bytes and the header counts that bound their numbers.
#[derive(Clone, Debug, PartialEq, Eq)]
pub struct FormulaCase {
    pub label: String,
    pub formula: Vec<u8>,
    pub counts: Counts,
}

const COUNTS: Counts = Counts { threads: 2, words: 3, registers: 4, range: 8 };

/// A formula for each code and for each pair of a code and a sort below it.
const SAMPLES: [(&str, &[u8]); 33] = [
    ("0 constant", &[0, 7]),
    ("1 register", &[1, 4]),
    ("2 word", &[2, 3]),
    ("3 sum", &[3, 0, 1, 1, 2]),
    ("3 sum of sums", &[3, 3, 2, 1, 0, 0, 3, 1, 1, 0, 5]),
    ("8 false", &[8]),
    ("9 equal", &[9, 1, 1, 2, 1]),
    ("9 equal sums", &[9, 3, 0, 1, 2, 2, 3, 1, 3, 0, 2]),
    ("10 less", &[10, 0, 3, 2, 2]),
    ("11 not", &[11, 8]),
    ("11 not equal", &[11, 9, 0, 0, 1, 2]),
    ("12 and", &[12, 8, 14, 1]),
    ("13 or", &[13, 15, 3, 8]),
    ("14 unsync", &[14, 3]),
    ("15 cov", &[15, 1]),
    ("16 [test]", &[16, 8]),
    ("16 [equal]", &[16, 9, 2, 1, 0, 4]),
    ("17 one", &[17, 2]),
    ("18 chop", &[18, 17, 1, 16, 15, 2]),
    ("19 both", &[19, 17, 3, 16, 14, 2]),
    ("20 either", &[20, 16, 8, 17, 1]),
    ("18 chop of chops", &[18, 18, 17, 1, 17, 2, 18, 17, 3, 16, 8]),
    ("24 sees", &[24, 2, 17, 1]),
    ("24 sees chop", &[24, 1, 18, 16, 14, 2, 16, 9, 2, 1, 0, 5]),
    ("25 both", &[25, 27, 24, 1, 17, 3]),
    ("26 either", &[26, 28, 8, 27]),
    ("27 start", &[27]),
    ("28 holds", &[28, 8]),
    ("28 holds less", &[28, 10, 1, 2, 3, 1, 4, 0, 6]),
    ("28 holds not and or", &[28, 11, 12, 8, 13, 9, 1, 1, 0, 0, 8]),
    ("words are free again behind 28", &[25, 28, 8, 24, 2, 16, 9, 2, 1, 2, 2]),
    ("flags are free again behind 28", &[26, 28, 8, 24, 2, 16, 14, 1]),
    ("25 of 25 and 26", &[25, 25, 28, 8, 27, 26, 24, 1, 17, 1, 27]),
];

/// All cases of the set.
pub fn cases() -> Vec<FormulaCase> {
    let mut list = List(Vec::new());
    list.samples();
    list.damaged_samples();
    list.cut_samples();
    list.every_first_code();
    for (label, formula) in nesting::cases() {
        list.add(label, &formula);
    }
    list.lengths();
    list.operand_limits();
    list.ranges();
    list.first_fault();
    list.under_holds();
    list.0
}

/// The cases as images: the formula is record 2 and nothing uses it.
pub fn images(cases: &[FormulaCase]) -> Vec<Case> {
    cases.iter().map(|case| Case::new(case.label.clone(), image(case))).collect()
}

/// An image that is accepted if the formula is well formed.
fn image(case: &FormulaCase) -> Vec<u8> {
    let Counts { threads, words, registers, range } = case.counts;
    let [threads_n, words_n, registers_n] = [threads, words, registers].map(usize::from);
    let (start, owners_and_marks) = (vec![0; words_n], vec![1; 2 * registers_n]);
    let header = [&[threads, words, registers, range][..], &start, &owners_and_marks].concat();
    let mut records = vec![
        Record::new(HEADER, header),
        Record::new(FORMULA, case.formula.clone()),
        Record::new(FORMULA, [28, 11, 8]),
        Record::new(FORMULA, [27]),
    ];
    records.extend(vec![Record::new(THREAD, [1]); threads_n]);
    records.push(Record::new(OUTLINE, [2, 0].repeat(threads_n)));
    records.push(Record::new(LINE, [20, 0, 0, 3, 0, 2, 0, 0]));
    records.push(Record::new(OBLIGATIONS, [1, 0].repeat(threads_n)));
    image_bytes(&records)
}

struct List(Vec<FormulaCase>);

impl List {
    fn add_with(&mut self, label: impl Into<String>, formula: &[u8], counts: Counts) {
        self.0.push(FormulaCase { label: label.into(), formula: formula.to_vec(), counts });
    }

    fn add(&mut self, label: impl Into<String>, formula: &[u8]) {
        self.add_with(label, formula, COUNTS);
    }

    fn samples(&mut self) {
        for (name, bytes) in SAMPLES {
            self.add(format!("{name}: well formed"), bytes);
        }
    }

    /// Each byte of each sample in turn: unknown code, another sort, out of range.
    fn damaged_samples(&mut self) {
        for (name, bytes) in SAMPLES {
            for place in 0..bytes.len() {
                for byte in [0, 4, 5, 8, 17, 27, 255] {
                    let mut damaged = bytes.to_vec();
                    damaged[place] = byte;
                    if damaged != bytes {
                        self.add(format!("{name}: byte {place} is {byte}"), &damaged);
                    }
                }
            }
        }
    }

    fn cut_samples(&mut self) {
        for (name, bytes) in SAMPLES {
            for length in 1..bytes.len() {
                self.add(format!("{name}: cut short at {length} bytes"), &bytes[..length]);
            }
            self.add(format!("{name}: a byte left over"), &[bytes, &[0]].concat());
            self.add(format!("{name}: itself left over"), &[bytes, bytes].concat());
        }
    }

    /// Every byte as the first, with bytes behind it that suit most codes.
    fn every_first_code(&mut self) {
        for code in 0..=255 {
            self.add(format!("first code {code}, alone"), &[code]);
            self.add(format!("first code {code}, with an operand"), &[code, 1]);
        }
    }

    fn lengths(&mut self) {
        for length in [253, 254, 255, 256, 257] {
            self.add(format!("{length} bytes, well formed"), &long_formula(length));
            self.add(format!("{length} bytes, unknown code first"), &vec![4; length]);
        }
        self.add("0 bytes", &[]);
        let mut bytes = long_formula(255);
        bytes[254] = 8;
        self.add("255 bytes, the last out of range", &bytes);
        self.add("255 bytes, cut short", &[&[3], &long_formula(254)[..]].concat());
    }

    fn operand_limits(&mut self) {
        let sizes = [(1, 1, 0), (1, 1, 1), (3, 8, 16), (2, 4, 15), (4, 8, 16)];
        for (threads, words, registers) in sizes {
            let counts = Counts { threads, words, registers, range: 8 };
            let limits: [(&str, &[u8], u8, &[u8]); 7] = [
                ("constant", &[0], 7, &[]),
                ("register", &[1], registers, &[]),
                ("word", &[2], words, &[]),
                ("unsync", &[14], words, &[]),
                ("cov", &[15], words, &[]),
                ("one", &[17], words, &[]),
                ("sees", &[24], threads, &[17, 1]),
            ];
            for (name, before, most, behind) in limits {
                for number in [0, 1, most, most + 1, 255] {
                    let bytes = [before, &[number], behind].concat();
                    let label = format!("{name} {number}, {threads} {words} {registers} there");
                    self.add_with(label, &bytes, counts);
                }
            }
        }
    }

    /// Constants up to the range, alone and inside.
    fn ranges(&mut self) {
        for range in 2..=16 {
            let counts = Counts { range, ..COUNTS };
            for number in [0, 1, range - 1, range, range + 1, 255] {
                let label = format!("constant {number}, range {range}");
                self.add_with(label, &[0, number], counts);
            }
            let sum = [28, 9, 3, 0, range - 1, 0, 1, 1, 1];
            self.add_with(format!("greatest constant in a sum, range {range}"), &sum, counts);
            let past = [28, 9, 3, 0, 1, 0, range, 5];
            let label = format!("6 before 7: constant {range}, then unknown code");
            self.add_with(label, &past, counts);
        }
    }

    /// Two faults: the first from the left counts.
    fn first_fault(&mut self) {
        self.add("6 before 7: register, then unknown code", &[3, 1, 9, 5]);
        self.add("7 before 6: unknown code, then register", &[3, 5, 1, 9]);
        self.add("6 before 7: word, then cut short", &[9, 2, 9, 0]);
        self.add("7 before 6: another sort, then constant", &[9, 8, 0, 9]);
        self.add("6 before 7: constant, then left over", &[0, 8, 0]);
        self.add("6 before 7: thread, then another sort", &[24, 3, 8]);
        self.add("7 before 6: assertion in an interval, then thread", &[18, 27, 24, 9, 17, 1]);
        self.add("6 in a formula with bytes left over", &[12, 14, 4, 8, 8]);
        self.add("7 for bytes left over that would be out of range", &[0, 7, 0, 9]);
        self.add("6 at the last operand", &[24, 1, 18, 17, 1, 17, 4]);
    }

    /// Words and flags do not stand under 28; the code is at fault, not its operand.
    fn under_holds(&mut self) {
        for (name, part) in [("word", 2), ("unsync", 14), ("cov", 15)] {
            for operand in [0, 1, 3, 4] {
                let value = [28, 9, part, operand, 0, 0];
                let test = [28, part, operand, 0, 0, 0];
                let bytes = if part == 2 { &value[..] } else { &test[..2 + 1] };
                self.add(format!("{name} {operand} under 28"), bytes);
            }
        }
        self.add("word deep under 28", &[28, 11, 12, 8, 10, 3, 1, 1, 2, 1, 0, 0]);
        self.add("flag deep under 28", &[28, 13, 8, 11, 14, 1]);
        self.add("6 before 7: register, then word under 28", &[28, 9, 1, 5, 2, 1]);
        self.add("7 before 6: word under 28, then register", &[28, 9, 2, 1, 1, 5]);
        self.add("word under 28 in the second part", &[25, 28, 8, 28, 9, 2, 1, 0, 0]);
    }
}

/// A flat formula with this many bytes.
pub fn long_formula(length: usize) -> Vec<u8> {
    // A sum of n constants has 3n - 1 bytes; an equation in front, negated once
    // or twice, makes up for the rest.
    let (front, behind): (&[u8], &[u8]) = match length % 3 {
        2 => (&[], &[]),
        0 => (&[11, 9], &[0, 0]),
        _ => (&[11, 11, 9], &[0, 0]),
    };
    let constants = (length + 1 - front.len() - behind.len()) / 3;
    [front, &balanced_sum(constants), behind].concat()
}

fn balanced_sum(constants: usize) -> Vec<u8> {
    if constants == 1 {
        return vec![0, 6];
    }
    let half = constants / 2;
    [&[3], &balanced_sum(half)[..], &balanced_sum(constants - half)].concat()
}

#[cfg(test)]
mod tests {
    use super::{cases, images, long_formula};
    use reference::checker::check;
    use reference::formula::parse::{parse, Fault};

    #[test]
    fn long_formulas_have_their_length() {
        for length in 20..300 {
            assert_eq!(long_formula(length).len(), length);
            assert!(parse(&long_formula(length), super::COUNTS).is_ok());
        }
    }

    #[test]
    fn an_image_is_accepted_if_its_formula_is_well_formed() {
        let cases = cases();
        for (case, image) in cases.iter().zip(images(&cases)) {
            let verdict = check(&image.image);
            let expected = match parse(&case.formula, case.counts) {
                _ if !(1..=255).contains(&case.formula.len()) => (5, 2),
                Ok(_) => (0, 0),
                Err(Fault::Range) => (6, 2),
                Err(Fault::Form) => (7, 2),
            };
            assert_eq!((verdict.code, verdict.record), expected, "{}", case.label);
        }
    }
}
