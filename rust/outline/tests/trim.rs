//! `trim`: what it prints, what it writes, its status.

mod program;

use program::{example, fed, judge, run, told, Folder};
use reference::checker::check;
use std::path::Path;

/// The scope page's small image, of range 8.
const SMALL: [u8; 50] = [
    7, 0, 1, 0, 1, 1, 0, 8, 0, 5, 0, 2, 0, 0x1c, 0x0b, 8, 3, 0, 2, 0, 0x1b, 3, 0, 3, 0, 1, 4, 0, 4,
    0, 1, 0, 10, 0, 5, 0, 0x14, 0, 0, 2, 0, 1, 0, 0, 4, 0, 6, 0, 1, 0,
];

/// The small image with a line written out that nothing rests on, about a formula of its own.
const WITH_DEAD_LINE: &str = "word x = 0
thread t1
  { true } @2
certificate
  formula 1: assertion false
  formula 2: assertion true
  formula 3: assertion start
  line 1: rule 20 1 to 2
  line 2: rule 20 3 to 2
  obligations 2
";

fn trimmer() -> String {
    let (_, out, _) = told(fed(&["trim", "-", "-o", "/dev/null"], &SMALL));
    let said = out.lines().nth(1).expect("a second line");
    let name = said.rsplit_once("   (").expect("who trimmed").1.trim_end_matches(')');
    assert!(["independent trimming", "proved trimming"].contains(&name), "{said}");
    assert!(cfg!(feature = "proved") || name == "independent trimming");
    name.into()
}

#[test]
fn dead_lines_are_counted_and_gone() {
    let folder = Folder::new("trim");
    let image = folder.file("small.image");
    let text = folder.with("dead.outline", WITH_DEAD_LINE);
    let (status, out, err) = run(&["trim", &text, "-o", &image]);
    // A formula of two bytes and a line without premises, each with its length and kind.
    let want = format!(
        "{image}: 50 bytes, 2 formulas, 1 line\ndropped: 18 bytes, 1 formula, 1 line   ({})\n\
         ACCEPTED: 1 obligation met   ({})\n",
        trimmer(),
        judge()
    );
    assert_eq!((status, out, err.as_str()), (0, want, ""));
    assert_eq!(std::fs::read(&image).expect("written"), SMALL);
}

#[test]
fn nothing_is_dropped_of_what_is_in_use() {
    let folder = Folder::new("trim-again");
    let (once, twice) = (folder.file("once.image"), folder.file("twice.image"));
    assert_eq!(run(&["trim", &example("peterson-claim"), "-o", &once]).0, 0);
    let (status, out, _) = run(&["trim", &once, "-o", &twice]);
    let want = format!(
        "{twice}: 28435 bytes, 379 formulas, 689 lines\n\
         nothing to drop: every line and formula is in use   ({})\n\
         ACCEPTED: 86 obligations met, 1 claim shown   ({})\n",
        trimmer(),
        judge()
    );
    assert_eq!((status, out), (0, want));
    let [once, twice] = [once, twice].map(|file| std::fs::read(file).expect("written"));
    assert_eq!(once, twice);
}

/// What the search found and did not need is what is dropped.
#[test]
fn every_line_that_was_found() {
    let folder = Folder::new("all-lines");
    let (all, left) = (folder.file("all.image"), folder.file("left.image"));
    let (status, out, _) = run(&["build", &example("message-passing"), "-o", &all, "--all-lines"]);
    let want = "all.image: 8374 bytes, 133 formulas, 386 lines, 18 obligations, 0 open\n";
    assert!(status == 0 && out.contains(want), "{out}");
    let (status, out, _) = run(&["trim", &all, "-o", &left]);
    assert!(
        status == 0 && out.contains("left.image: 2814 bytes, 59 formulas, 101 lines\n"),
        "{out}"
    );
    assert!(out.contains("\ndropped: 5560 bytes, 74 formulas, 285 lines   ("), "{out}");
    let verdicts = [all, left].map(|file| check(&std::fs::read(file).expect("written")));
    assert_eq!(verdicts[0], verdicts[1]);
}

#[test]
fn what_is_refused_is_not_trimmed() {
    let folder = Folder::new("trim-refused");
    let (wrong, image) = (example("message-passing-wrong-1"), folder.file("w.image"));
    let (status, out, err) = run(&["trim", &wrong, "-o", &image]);
    let want = format!(
        "{wrong}: REFUSED: class 4, thread 2 (reader) point 0 (line 23) under thread 1 (writer) point 1 (line 17): \
         it names no line (code 20)   ({})\n\
         {wrong}: only an accepted image is trimmed (code 24); nothing is written\n",
        judge()
    );
    assert_eq!((status, out.as_str(), err), (1, "", want));
    assert!(!Path::new(&image).exists());
    let (status, out, _) = run(&["trim", &wrong, "-o", &image, "--json"]);
    let words = "\"accepted\":false,\"fields\":[20,0,4,2,0,1,1,0,9],\"words\":\"REFUSED: ";
    assert!(status == 1 && out.contains(words) && !Path::new(&image).exists(), "{out}");
}

#[test]
fn through_pipes_and_as_json() {
    let output = fed(&["trim", "-", "-o", "-"], &SMALL);
    assert_eq!(output.stdout, SMALL);
    let (status, _, err) = told(output);
    assert!(status == 0 && err.starts_with("-: 50 bytes, 2 formulas, 1 line\n"), "{err}");
    let (status, out, _) = told(fed(&["trim", "-", "-o", "/dev/null", "--json"], &SMALL));
    let size = "{\"bytes\":50,\"formulas\":2,\"lines\":1}";
    let want = format!(
        "{{\"version\":1,\"command\":\"trim\",\"status\":0,\"file\":\"standard input\",\"accepted\":true,\
         \"fields\":[0,0,0,0,0,0,0,0,1],\"words\":\"ACCEPTED: 1 obligation met\",\"judge\":\"{}\",\"class\":null,\
         \"places\":[],\"before\":{size},\"after\":{size},\"trimmer\":\"{}\"}}\n",
        judge(),
        trimmer()
    );
    assert_eq!((status, out), (0, want));
}

#[test]
fn wrong_use() {
    let said = |args: &[&str]| {
        let (status, out, err) = run(args);
        assert_eq!((status, out.as_str()), (2, ""));
        err
    };
    assert_eq!(said(&["trim", "x.image"]), "`-o FILE` is wanted; see outline --help\n");
    assert_eq!(said(&["trim", "-o", "y.image"]), "a file is wanted; see outline --help\n");
    assert!(said(&["trim", "none.image", "-o", "y.image"]).starts_with("none.image: "));
    assert!(said(&["trim", "x", "-o", "y", "--all"]).contains("`--all` is no option here"));
}
