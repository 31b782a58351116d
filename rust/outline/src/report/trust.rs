//! What is proved and what must be believed, in five lines.

use super::parts::{self, note};
use crate::command::judge::PROVED;
use crate::markup::{el, Element};

const LINES: [(&str, &str); 5] = [
    (
        "Proved.",
        "If the proved checker accepts an image, then from every permitted start, after every finite list of steps, \
         each thread’s assertion at its point is true. Each rule is shown sound against the machine; no axiom is used.",
    ),
    (
        "Proved.",
        "For every byte string the checker answers what the published rules say: accepted, or the first fault or the \
         first obligation that lacks a justified line.",
    ),
    (
        "Not said.",
        "That the program ends, or that the assertions say what you need: read them above. And refused does not mean \
         false, unless a run is drawn that breaks the outline.",
    ),
    (
        "Believed.",
        "The definitions of machine, truth, rules and image format, and that your device does what the machine does \
         and runs the program shown here.",
    ),
    (
        "Believed.",
        "The prover with its library and the compiler’s back end. This page and the search for the certificate \
         need no trust: give the image to the checker and compare record and digest.",
    ),
];

pub fn section(judge: &str) -> Element {
    let line =
        |(word, text): (&str, &str)| el("li").child(el("strong").text(word)).text(" ").text(text);
    let out = parts::section("trust", "What is proved, and what must be believed");
    let out = out.child(el("ul").all(LINES.into_iter().map(line)));
    match judge == PROVED {
        true => out,
        false => out.child(note(
            "This verdict is the independent checker’s, which is compared with the proved one but not itself proved. \
             The theorem speaks of the proved checker: hand it the same image.",
        )),
    }
}
