//! `infer`: programs with a wish get outlines that are accepted, false wishes a run, and the rest an honest answer.

mod program;

use outline::gallery;
use outline::infer::{infer, written, Answer, Found, Wish, TRIES};
use outline::text::parse_source::parse;
use outline::text::source::Source;
use program::{fed, run, Folder};
use reference::checker::check;
use std::path::PathBuf;

/// So many programs of the gallery get an outline at least.
const FOUND: usize = 22;

fn question(name: &str) -> String {
    let folder = PathBuf::from(env!("CARGO_MANIFEST_DIR")).join("../../examples/infer");
    std::fs::read_to_string(folder.join(format!("{name}.program"))).expect("a program")
}

fn asked(text: &str) -> Source {
    parse(text).unwrap_or_else(|e| panic!("{e}\n{text}"))
}

fn answer(source: &Source) -> Answer {
    infer(source, &Wish::of(source, false), TRIES, &|_, _| true)
}

/// The outline of a program, accepted, as text.
fn found(name: &str, text: &str) -> String {
    let source = asked(text);
    let Answer::Found(found) = answer(&source) else { panic!("{name}: not found") };
    told(name, text, &source, &found)
}

/// The text of what was found, which is accepted again.
fn told(name: &str, text: &str, source: &Source, found: &Found) -> String {
    assert_eq!(check(&found.bytes).code, 0, "{name}");
    let outline = written(text, source, &found.source).unwrap_or_else(|e| panic!("{name}: {e}"));
    let again = outline::build::build(&asked(&outline)).unwrap_or_else(|e| panic!("{name}: {e}"));
    assert_eq!(check(&again.image.bytes()).code, 0, "{name}: its text is not accepted");
    outline
}

/// What was found for a program of the gallery: its text is accepted, and nothing that was asked is changed.
fn look_at(name: &str, text: &str, answer: &Answer) {
    let Answer::Found(found) = answer else { return };
    let source = asked(text);
    let outline = asked(&told(name, text, &source, found));
    assert!(!outline.has_holes(), "{name}");
    assert_eq!(outline.labels, source.labels, "{name}: labels stay");
    assert_eq!(outline.meetings(), source.meetings(), "{name}: claims stay");
    assert_eq!(outline.threads, source.threads, "{name}: the program stays");
}

/// The table of `examples/README.md` is what the program makes, and what it says is as it should be: most programs are
/// found, in tries that no limit cuts, and half of the certificates are not larger than those made by hand.
#[test]
fn programs_of_the_gallery_get_the_outlines_of_the_table() {
    let folder = PathBuf::from(env!("CARGO_MANIFEST_DIR")).join("../../examples");
    let page = std::fs::read_to_string(folder.join("README.md")).expect("the page");
    let fresh = gallery::inferred::page(&page, &folder, &mut look_at).expect("the table");
    let differs = page.lines().zip(fresh.lines()).find(|(old, new)| old != new);
    assert_eq!(differs, None, "write it again: gallery examples --write");
    assert_eq!(page, fresh, "write it again: gallery examples --write");
    let rows = |mark: &str| -> Vec<Vec<String>> {
        let lines = fresh.lines().filter(|line| line.contains(mark));
        lines.map(|line| line.split('|').map(|cell| cell.trim().to_string()).collect()).collect()
    };
    let found = rows("` | yes | ");
    assert!(found.len() >= FOUND, "{} are found", found.len());
    let number = |cell: &String| cell.parse::<usize>().expect("a number");
    let not_larger = found.iter().filter(|row| number(&row[5]) <= number(&row[8])).count();
    assert!(2 * not_larger >= found.len(), "{not_larger} of {} are not larger", found.len());
}

const PASSING: &str = "\
# A flag brings the data.
word data = 0
word flag = 0

thread writer
    data := 1    # relaxed
  raise:
    flag :=rel 1

thread reader
  registers a, b
  { ? }
    a <-acq flag
  looked: { ? }
    b <- data
  { a = 1 => b = 1 }   # what is wished
";

#[test]
fn comments_labels_and_the_wish_stay_as_they_are_written() {
    let outline = found("passing", PASSING);
    for kept in
        ["# A flag brings the data.\n", "data := 1    # relaxed\n", "  raise: {", "  looked: {"]
    {
        assert!(outline.contains(kept), "{kept:?} is lost:\n{outline}");
    }
    assert!(outline.contains("{ a = 1 => b = 1 }   # what is wished\n"), "{outline}");
}

#[test]
fn a_word_of_two_values_is_said_to_have_one() {
    let outline = found("passing", PASSING);
    assert!(outline.contains("reader sees [flag = 0]") && !outline.contains("!= 1]"), "{outline}");
}

#[test]
fn the_best_outline_until_an_interrupt_can_be_written() {
    let text = question("rcu-containers");
    let source = asked(&text);
    let answer = infer(&source, &Wish::of(&source, false), TRIES, &|done, _| done < 250_000);
    let Answer::NotFound(end) = answer else { panic!("it is not found so fast") };
    assert!(end.stopped && end.tried.tries < TRIES, "{}", end.tried.tries);
    let (best, open) = end.best.expect("some outline was put together");
    assert!(!open.is_empty());
    let outline = asked(&written(&text, &source, &best).expect("written"));
    assert!(!outline.has_holes() && outline.threads == source.threads);
}

#[test]
fn progress_is_told_in_tries_and_never_goes_back() {
    let source = asked(PASSING);
    let told = std::cell::RefCell::new(Vec::new());
    infer(&source, &Wish::of(&source, false), TRIES, &|done, all| {
        told.borrow_mut().push((done, all));
        true
    });
    let told = told.into_inner();
    assert!(
        told.len() > 1 && told.iter().all(|(done, all)| done <= all && *all == TRIES),
        "{told:?}"
    );
    assert!(told.windows(2).all(|two| two[0].0 <= two[1].0), "{told:?}");
}

#[test]
fn the_same_question_gets_the_same_answer() {
    assert_eq!(found("passing", PASSING), found("passing", PASSING));
}

/// Nothing comes to the points behind a loop without an end: `false` is shown there.
#[test]
fn points_that_no_run_reaches_get_their_assertions() {
    let text = "word x = 0\nthread a\n registers r\n again: { ? } r <- x {?} if true goto again {?} x := 2 { false }\n\
                thread b\n registers s\n {?} x := 1 {?} s <- x { s = 1 }\n";
    let outline = found("unreached", text);
    assert!(outline.contains("goto again {") && outline.contains("{ false }"), "{outline}");
}

#[test]
fn a_false_wish_is_told_with_its_run() {
    let wrong = PASSING.replace("flag :=rel 1", "flag := 1");
    let output = fed(&["infer", "-", "-o", "-"], wrong.as_bytes());
    assert_eq!(output.status.code(), Some(1));
    let told = String::from_utf8_lossy(&output.stderr).into_owned();
    assert!(
        told.starts_with("FALSE: a run of 4 steps breaks an assertion that is wished\n"),
        "{told}"
    );
    assert!(
        told.contains("reads 0 from write 1") && told.contains("false: reader at point 2: "),
        "{told}"
    );
    assert!(output.stdout.is_empty(), "no outline is written");
}

#[test]
fn a_broken_claim_is_told_with_its_run() {
    let text = "word x = 0\nthread a\n registers r\n r <- x\n in: r := 0\nthread b\n x := 1\n in: x := 0\nnever a in and b in\n";
    let output = fed(&["infer", "-", "-o", "-", "--json"], text.as_bytes());
    assert_eq!(output.status.code(), Some(1));
    let told = String::from_utf8_lossy(&output.stderr).into_owned();
    assert!(
        told.contains("\"command\":\"infer\"")
            && told.contains("\"answer\":\"false\"")
            && told.contains("claimed never to happen"),
        "{told}"
    );
}

#[test]
fn what_is_beyond_the_rules_is_not_found_and_not_told_false() {
    let text = "word x = 0\nthread w\n x := 1\nthread v\n x := 2\n\
                thread left\n registers a, b\n {?} a <- x {?} b <- x {?}\n\
                thread right\n registers c, d\n {?} c <- x {?} d <- x\n\
                { a = 0 or b = 0 or c = 0 or d = 0 or a != d or b != c or a = b }\n";
    let folder = Folder::new("beyond");
    let (file, to) = (folder.with("q.outline", text), folder.file("a.outline"));
    let (status, out, err) = run(&["infer", &file, "-o", &to, "--tries", "200000"]);
    assert_eq!((status, err.as_str()), (3, ""));
    assert!(out.starts_with("NOT FOUND: "), "{out}");
    assert!(!std::path::Path::new(&to).exists(), "nothing is written");
}

/// Clauses are found that no outline within ten leaves was certified of: both is said, also as JSON.
#[test]
fn two_points_that_pass_ten_leaves_together_are_named() {
    let folder = Folder::new("leaves");
    let file = folder.with("q.outline", &question("rcu-containers"));
    let args = ["infer", &file, "-o", &folder.file("a.outline"), "--tries", "200000"];
    let (status, out, err) = run(&args);
    assert_eq!((status, err.as_str()), (3, ""));
    let told = [
        "clauses that rest on each other were found, and no outline of them was certified\n",
        " leaves together, and rule 20 takes 10\n",
    ];
    for line in told {
        assert!(out.contains(line), "{line:?} is not in\n{out}");
    }
    let (status, out, _) = run(&[&args[..], &["--json"]].concat());
    assert!(status == 3 && told.iter().all(|line| out.contains(line.trim_end())), "{out}");
}

#[test]
fn wrong_use_is_told() {
    let folder = Folder::new("infer-use");
    let nothing = folder.with("n.outline", "word x = 0\nthread a\n x := 1\n");
    let (status, _, err) = run(&["infer", &nothing, "-o", "-"]);
    assert!(status == 2 && err.contains("nothing is wished"), "{err}");
    let (status, _, err) = run(&["infer", &nothing]);
    assert!(status == 2 && err.contains("`-o FILE` is wanted"), "{err}");
    let (status, _, err) = run(&["infer", &nothing, "-o", "-", "--tries", "many"]);
    assert!(status == 2 && err.contains("wants a number"), "{err}");
}

/// An outline of message passing with some points left open.
const HOLES: &str = "\
word data = 0
word flag = 0

thread writer
  { writer sees one data and writer sees one flag and reader sees one flag = 0 }
    data := 1
  { ? }
    flag :=rel 1
  { true }

thread reader
  registers a, b
  { ? }
    a <-acq flag
  { a = 1 => reader sees [data = 1] }
    b <- data
  { a = 1 => b = 1 }
";

#[test]
fn build_fills_holes_and_leaves_what_is_given() {
    let folder = Folder::new("holes");
    let (file, image) = (folder.with("h.outline", HOLES), folder.file("h.image"));
    let (status, out, err) = run(&["build", &file, "-o", &image]);
    assert_eq!((status, err.as_str()), (0, ""), "{out}");
    assert!(out.contains("ACCEPTED: 18 obligations met"), "{out}");
    let source = asked(HOLES);
    let Answer::Found(found) = infer(&source, &Wish::of(&source, true), TRIES, &|_, _| true) else {
        panic!("not found")
    };
    for (old, new) in source.points.iter().flatten().zip(found.source.points.iter().flatten()) {
        assert!(old.hole || old.assertion == new.assertion, "what is given stays");
    }
    let (status, out, _) = run(&["check", &file]);
    assert!(status == 0 && out.contains("ACCEPTED"), "{out}");
}

#[test]
fn holes_that_cannot_be_filled_are_told() {
    let weak = HOLES.replace("{ a = 1 => reader sees [data = 1] }", "{ true }");
    let output = fed(&["build", "-", "-o", "-"], weak.as_bytes());
    assert_eq!(output.status.code(), Some(3));
    let told = String::from_utf8_lossy(&output.stderr).into_owned();
    assert!(told.starts_with("NOT FOUND: "), "{told}");
    assert!(
        told.contains("\nclass 2, thread 2 (reader) point 1 (line 15): the step to the next"),
        "{told}"
    );
}
