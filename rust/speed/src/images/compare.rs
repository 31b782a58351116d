//! The readers' answers on damaged images.

use super::answer::{Answer, Reader};
use super::build::{image, Size};
use super::damage::damage;
use crate::random::Random;
use std::collections::BTreeMap;
use std::fmt;

/// How many images there were, on how many the answers differ, and how often each code came; 0 for an
/// image that is not refused.
pub struct Compared {
    images: usize,
    pub differ: usize,
    codes: BTreeMap<u16, usize>,
}

/// The codes that an image's bytes can have.
const CODES: [u16; 10] = [0, 2, 3, 4, 5, 6, 7, 8, 9, 23];

/// A comparison with fewer answers of some code says little.
const OFTEN: usize = 100;

impl Compared {
    fn count(&mut self, answer: Answer) {
        let code = answer.map_or_else(|refusal| refusal.code, |()| 0);
        *self.codes.entry(code).or_default() += 1;
    }

    fn often(&self, code: u16) -> usize {
        self.codes.get(&code).copied().unwrap_or(0)
    }

    /// Whether each code came often.
    pub fn is_useful(&self) -> bool {
        CODES.into_iter().all(|code| self.often(code) >= OFTEN)
    }
}

impl fmt::Display for Compared {
    fn fmt(&self, f: &mut fmt::Formatter) -> fmt::Result {
        let sound = self.often(0);
        write!(f, "{} damaged images: {} differ ({sound} sound", self.images, self.differ)?;
        for code in &CODES[1..] {
            write!(f, ", {} of code {code}", self.often(*code))?;
        }
        write!(f, ")")
    }
}

/// Compares the readers on so many images, and prints the first one on which they differ. Each image is
/// damaged a hundred times, each time from the whole.
pub fn on_damaged(random: &mut Random, readers: &[(&str, Reader)], images: usize) -> Compared {
    let mut compared = Compared { images, differ: 0, codes: BTreeMap::new() };
    let mut whole = Vec::new();
    for i in 0..images {
        if i % 100 == 0 {
            let size = Size::small(random);
            whole = image(random, &size);
            for (name, read) in readers {
                assert_eq!(read(&whole), Ok(()), "{name} on {whole:?}");
            }
        }
        let mut damaged = whole.clone();
        damage(random, &mut damaged);
        let answers: Vec<Answer> = readers.iter().map(|(_, read)| read(&damaged)).collect();
        compared.count(answers[0]);
        if answers.iter().any(|answer| *answer != answers[0]) {
            if compared.differ == 0 {
                println!("{damaged:?}: {answers:?}");
            }
            compared.differ += 1;
        }
    }
    compared
}
