//! Texts and images with random changes: nothing that is read may end the program, or be read as something else.
//!
//! Each run is made from a seed alone, so what was found once is found again.

mod change;
pub mod dice;

use crate::build::build_within;
use crate::command::input::{of_bytes, Input};
use crate::image::{self, to_bytes};
use crate::text::parse_source::{parse, parse_all};
use crate::text::{parse_session, parse_tariff, parse_trace, show};
use change::{changed_bytes, changed_text};
pub use dice::Dice;
use reference::checker::{check, decode};
use std::panic::{catch_unwind, AssertUnwindSafe};

/// What runs begin with.
pub struct Seeds {
    pub texts: Vec<String>,
    pub images: Vec<Vec<u8>>,
}

/// A run that went wrong: what was read, and what happened.
#[derive(Debug)]
pub struct Failure {
    pub seed: u64,
    pub input: Vec<u8>,
    pub told: String,
}

/// So many tries for each obligation: it is the reading that is tested here, not the search.
const TRIES: u64 = 20;

/// Sources above this are read and not built.
const MOST_BUILT: usize = 4_000;

/// Whether an input was read, or refused with a message; or what is wrong.
pub type Judged = Result<bool, String>;

/// What an input is held to.
type Judge = fn(&[u8]) -> Judged;

/// The run of a seed: whether its input was read.
pub fn run(seeds: &Seeds, seed: u64) -> Result<bool, Failure> {
    let mut dice = Dice::of(seed);
    let pick = dice.below(100);
    let (input, judge): (Vec<u8>, Judge) = if pick < 45 {
        (changed_text(&mut dice, &seeds.texts).into_bytes(), text)
    } else if pick < 60 {
        let bytes = changed_text(&mut dice, &seeds.texts).into_bytes();
        (changed_bytes(&mut dice, &bytes), file)
    } else {
        let at = dice.below(seeds.images.len());
        (changed_bytes(&mut dice, &seeds.images[at]), image)
    };
    let told = match catch_unwind(AssertUnwindSafe(|| judge(&input))) {
        Ok(Ok(is_read)) => return Ok(is_read),
        Ok(Err(told)) => told,
        Err(_) => "it panics".into(),
    };
    Err(Failure { seed, input, told })
}

/// A text is read as a source and as every other text; what is built of it is an image in order.
pub fn text(bytes: &[u8]) -> Judged {
    let text = std::str::from_utf8(bytes).map_err(|e| e.to_string())?;
    let _ = parse_session::session(text);
    let _ = parse_tariff::tariff(text);
    let source = match parse_all(text) {
        Ok(source) => source,
        Err(mistakes) if mistakes.is_empty() => return Err("refused without a mistake".into()),
        Err(mistakes) => {
            let lines = text.lines().count().max(1);
            let within = |line: usize| (1..=lines).contains(&line);
            let place = mistakes.iter().find(|mistake| !within(mistake.line.line));
            return place
                .map_or(Ok(false), |mistake| Err(format!("a mistake beyond the text: {mistake}")));
        }
    };
    let _ = parse_trace::trace(&source.names, text);
    if text.len() > MOST_BUILT && source.certificate.is_none() {
        return Ok(true);
    }
    let Ok(built) = build_within(&source, TRIES) else { return Ok(true) };
    let Ok(bytes) = to_bytes(&built.image) else { return Ok(true) };
    let code = check(&bytes).code;
    // A certificate that is written out may name rules and places that no line has.
    let is_explicit = source.certificate.is_some();
    if (1..20).contains(&code) && !is_explicit {
        return Err(format!("it is read, and its image is refused with code {code}"));
    }
    image(&bytes)
}

/// Any bytes are an image, a text, or told to be neither.
pub fn file(bytes: &[u8]) -> Judged {
    match of_bytes("-", bytes.to_vec()) {
        Ok(Input::Text(read)) => text(read.as_bytes()),
        Ok(Input::Image(bytes)) => image(&bytes),
        Err(told) if told.is_empty() => Err("refused without a word".into()),
        Err(_) => Ok(false),
    }
}

/// An image is judged; one in order comes back the same from its text.
pub fn image(bytes: &[u8]) -> Judged {
    let verdict = check(bytes);
    let read = match (image::read(bytes), decode(bytes)) {
        (Ok(read), Ok(_)) => read,
        (Err(_), Err(_)) if verdict.code != 0 => return Ok(false),
        _ => return Err(format!("the readers disagree, and the verdict is {verdict}")),
    };
    let shown = show::show(&read);
    let source = parse(&shown).map_err(|e| format!("what is shown is not read: {e}"))?;
    let built =
        build_within(&source, TRIES).map_err(|e| format!("what is shown is not built: {e}"))?;
    match to_bytes(&built.image) {
        Ok(again) if again == bytes => Ok(true),
        Ok(_) => Err("what is shown gives other bytes".into()),
        Err(told) => Err(format!("what is shown gives no image: {told}")),
    }
}
