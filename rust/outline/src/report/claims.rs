//! The claims of an image, in one sentence each.

use super::parts::{self, answer, note, opened, point, REFUSED};
use super::trees::Trees;
use super::Content;
use crate::judged::{Goal, Judged, Standing, NOTHING_FOLLOWS};
use crate::markup::{el, of, Element};
use reference::image::Meeting;

/// The claims of an image: this is the one place that lists them.
fn claims(content: &Content) -> Vec<(&Judged, Meeting)> {
    let claim = |judged: &'_ Judged| match judged.goal {
        Goal::Claim(meeting) => Some(meeting),
        Goal::Duty(_) => None,
    };
    content.judged.iter().filter_map(|judged| Some((judged, claim(judged)?))).collect()
}

pub fn section(content: &Content) -> Element {
    let out = parts::section("claims", "Claims");
    let all = claims(content);
    if all.is_empty() {
        return out.child(note("The image makes no claim besides its assertions."));
    }
    let shown = match content.accepted {
        true => "Shown, and true in every run:".to_string(),
        false => format!("{REFUSED} none of these is a result."),
    };
    let mut trees = Trees::of(content);
    let list = all.iter().map(|(judged, meeting)| item(content, &mut trees, judged, meeting));
    out.child(note(&shown)).child(of("ul", "claims").all(list.collect::<Vec<_>>()))
}

fn item(content: &Content, trees: &mut Trees, judged: &Judged, meeting: &Meeting) -> Element {
    let standing = judged.standing(content.accepted);
    let (class, said) = answer(standing);
    let said = match standing {
        Standing::LineThere => format!("{said}; {NOTHING_FOLLOWS}"),
        _ => said.to_string(),
    };
    let claimed = if content.accepted { "" } else { "Claimed: " };
    let words = el("span").text(claimed).child(sentence(content, meeting));
    let words = words.text(" ").child(of("span", class).text(said));
    match judged.line {
        0 => el("li").child(words),
        line => el("li").all(opened(words, trees.tree(line))),
    }
}

/// A claim in words.
pub fn sentence(content: &Content, meeting: &Meeting) -> Element {
    let at = |thread: u8, p: u8| point(&content.words.names, thread, p);
    let first = el("span").child(at(meeting.thread, meeting.point)).text(" and ");
    let both = first.child(at(meeting.other_thread, meeting.other_point));
    both.text(" never meet.")
}
