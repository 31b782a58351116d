//! `fmt`: an outline in its usual layout. Tokens and comments stay as they are and in their order; what changes are spaces,
//! line breaks between declarations, points and instructions, and empty lines. Line breaks inside of a formula are its
//! writer's.

mod command;
mod layout;
mod pieces;
mod starts;

pub use command::run;

use crate::text::lex::Mistake;
use crate::text::parse_source::parse_all;
use layout::Layout;
use pieces::{pieces, What};

/// The text in its usual layout, or its mistakes: a text that cannot be read stays as it is.
pub fn formatted(text: &str) -> Result<String, Vec<Mistake>> {
    let source = parse_all(text)?;
    let (all, list) = pieces(text);
    let starts = starts::starts(&list, &source);
    let mut layout = Layout::default();
    all.iter().enumerate().for_each(|(at, _)| layout.add(&all, at, &starts));
    let out = layout.text();
    match says_the_same(text, &out) {
        true => Ok(out),
        false => {
            let text = "mistake in this tool: the layout would change the text".into();
            Err(vec![Mistake { line: 1.into(), text }])
        }
    }
}

/// Whether two texts have the same tokens and the same comments, in the same order.
fn says_the_same(one: &str, other: &str) -> bool {
    let what =
        |text: &str| pieces(text).0.into_iter().map(|piece| piece.what).collect::<Vec<What>>();
    what(one) == what(other)
}
