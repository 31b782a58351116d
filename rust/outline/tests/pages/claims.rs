//! Claims on a page: in a sentence, with their lines, and with a run that breaks one.

use crate::reader::{count, tags};
use crate::{folder, run};
use outline::text::parse_source::parse;
use reference::formula::encode::Encode;
use reference::formula::{Assertion, Formula, Test};
use reference::image::written::{Line, Written};
use reference::image::{Claim, Meeting};

/// The first thread never leaves its loop.
const LOOP: &str = "word x = 0
thread t registers r { r = 0 } if r = 0 goto 0 { false }
thread u { r < 2 } x := 1 { true }";

fn meeting(point: u8, other_point: u8) -> Meeting {
    Meeting { thread: 1, point, other_thread: 2, other_point }
}

/// The image of the loop with a claim by a line of rule 20, or by none.
fn with_claim(meeting: Meeting, shown: bool) -> Vec<u8> {
    let source = parse(LOOP).expect("a source");
    let program = source.program();
    let mut image = outline::build::build(&source).expect("built").image;
    let at = |thread: u8, point: u8| program.assertion(thread, point).clone();
    let left = Assertion::both(at(1, meeting.point), at(2, meeting.other_point));
    let sides = [left, Assertion::holds(Test::False)].map(|a| number(&mut image, a));
    let [left, right] = sides;
    image.lines.push(Line { rule: 20, thread: 0, point: 0, left, right, premises: Vec::new() });
    let line = if shown { image.lines.len() as u16 } else { 0 };
    image.claims.push(Claim { meeting, line });
    image.bytes()
}

/// A formula at the end of the image's list.
fn number(image: &mut Written, assertion: Assertion) -> u16 {
    image.formulas.push(Formula::Assertion(assertion.into()).encode());
    image.formulas.len() as u16
}

fn page(test: &str, image: &[u8]) -> (i32, String) {
    let folder = folder(test);
    let file = folder.join("claim.image");
    std::fs::write(&file, image).expect("written");
    let (status, text, err) = run(&["report", file.to_str().expect("a name"), "-o", "-"]);
    let _ = std::fs::remove_dir_all(folder);
    assert!(status < 2, "{err}");
    (status, text)
}

/// The page's section of claims.
fn section(text: &str) -> &str {
    let (_, behind) = text.split_once("<section id=\"claims\"").expect("a section");
    behind.split_once("</section>").expect("it ends").0
}

#[test]
fn a_claim_that_is_shown_is_a_sentence_with_its_lines() {
    let (status, text) = page("claim-shown", &with_claim(meeting(1, 0), true));
    assert_eq!(status, 0);
    assert!(text.contains(" t1 at point 1 and t2 at point 0 are never together. "));
    let claims = section(&text);
    let sentence = "<a href=\"#point-1-1\">t1 at point 1</a> and <a href=\"#point-2-0\">t2 at point 0</a> never meet.";
    assert!(claims.contains(sentence), "{claims}");
    assert!(claims.contains("Shown, and true in every run:") && claims.contains(">met</span>"));
    assert!(claims.contains("rule 20: By truth table"));
}

#[test]
fn a_claim_that_a_run_breaks_is_drawn() {
    let (status, text) = page("claim-broken", &with_claim(meeting(0, 1), false));
    assert_eq!(status, 1);
    let all = tags(&text);
    assert_eq!((count(&all, "run"), count(&all, "open")), (1, 1));
    let never = "a run of 1 step breaks a claim: never t1 at point 0 and t2 at point 1.";
    assert!(
        text.contains(&format!("</strong> The program is wrong: {never} It is not shown that")),
        "{text}"
    );
    assert!(text.contains("It is not shown that t1 at point 0 and t2 at point 1 never meet."));
    assert!(text.contains(">Claimed never to meet: t1 at point 0 and t2 at point 1</text>"));
    assert!(section(&text).contains("The image is refused: none of these is a result."));
}

/// The line says false of other points, so the claim is not shown, though no run breaks it.
#[test]
fn a_claim_by_another_line_is_not_shown() {
    let mut image = with_claim(meeting(1, 0), true);
    let end = image.len();
    // The last record has thread, point, other thread, other point and a line: point 1 of the second thread instead.
    image[end - 3] = 1;
    let (status, text) = page("claim-other", &image);
    assert_eq!(status, 1);
    assert!(text.contains("is not justified or concludes something else. (Code 26; "), "{text}");
    assert!(text.contains("It is not proved: no run breaks an assertion or a claim (all "));
}
