//! Outlines by further rules (`docs/PROPOSALS.md`): what is accepted by them is no verdict, and no image has such lines.

use crate::build::{build_with, Built};
use crate::command::judge::judge as published;
use crate::image::to_bytes;
use crate::infer::{infer, Answer, Watch, Wish};
use crate::search::budget::TRIES;
use crate::search::kept::Kept;
use crate::text::counted;
use crate::text::lex::Mistake;
use crate::text::source::Source;
use reference::checker::further::{judge, Judgement};
use reference::checker::rules::{further, Rules};
use reference::image::written::Written;

/// What every answer by further rules begins with.
pub const NO_VERDICT: &str = "NO VERDICT BY THE PUBLISHED RULES";

/// The further rules by which lines go, each once.
pub fn used(image: &Written) -> Vec<u8> {
    further::rules().filter(|rule| image.lines.iter().any(|line| line.rule == *rule)).collect()
}

/// `rule 54`, `rules 54, 55 and 57`.
pub fn named(rules: &[u8]) -> String {
    let mut all: Vec<String> = rules.iter().map(u8::to_string).collect();
    match (all.pop(), all.is_empty()) {
        (None, _) => "no rule".into(),
        (Some(last), true) => format!("rule {last}"),
        (Some(last), false) => format!("rules {} and {last}", all.join(", ")),
    }
}

/// Why an image with such lines is not written.
pub fn not_written(rules: &[u8]) -> String {
    format!(
        "no image is written: lines go by further {}, and those of an image by published rules",
        named(rules)
    )
}

/// Infers by the published rules; if nothing is found by them and further ones may serve, once more by both.
pub fn infer_first_by_published(source: &Source, wish: &Wish, most: u64, watch: Watch) -> Answer {
    let published = Source { rules: Rules::Published, ..source.clone() };
    match infer(&published, wish, most, watch) {
        Answer::NotFound(end) if source.rules == Rules::WithFurther && !end.stopped => {
            infer(source, wish, most, watch)
        }
        found => found,
    }
}

/// The bytes of the image if all is met: of one whose lines go by further rules none, since there is no such image.
pub fn accepted_bytes(built: &Built) -> Option<Vec<u8>> {
    let bytes = to_bytes(&built.image).ok().filter(|_| built.open.is_empty())?;
    match used(&built.image).is_empty() {
        true => (published(&bytes).code == 0).then_some(bytes),
        false => judge(&bytes).accepted.then(Vec::new),
    }
}

/// What both sets of rules say of an outline.
pub struct Further {
    pub built: Built,
    pub judgement: Judgement,
}

impl Further {
    /// Builds by both sets, the published one first, and judges by both.
    pub fn of(source: &Source) -> Result<Further, Mistake> {
        let source = Source { rules: Rules::WithFurther, ..source.clone() };
        let built = build_with(&source, Kept::Needed, TRIES, &|_, _| true)?;
        Ok(Further::judged(built))
    }

    /// The independent checker's judgement; nothing is judged that an image has no room for.
    pub fn judged(built: Built) -> Further {
        let judgement = judge(&built.image.bytes());
        Further { built, judgement }
    }

    /// Whether everything is met, and by further rules.
    pub fn is_accepted(&self) -> bool {
        self.judgement.accepted && !self.judgement.used.is_empty()
    }

    /// The first line of an answer: no verdict, the rules, and what they come to.
    pub fn words(&self) -> String {
        let image = &self.built.image;
        let all = counted(image.obligations.len(), "obligation");
        let claims = match image.claims.len() {
            0 => String::new(),
            n => format!(" and {}", counted(n, "claim")),
        };
        let told = match self.judgement.accepted {
            true => format!("all of {all}{claims} are met"),
            false => format!("{} of {all}{claims} are open", self.built.open.len().max(1)),
        };
        format!("{NO_VERDICT}: with further {}, {told}", named(&self.judgement.used))
    }
}
