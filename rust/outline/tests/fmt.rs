//! `fmt`: the layout of outlines. Meaning and comments stay, and a second time changes nothing.

mod program;

use outline::build::build_past_failures;
use outline::fmt::formatted;
use outline::image::to_bytes;
use outline::text::lex::tokens;
use outline::text::parse_source::parse;
use program::{fed, run, told, Folder};
use std::path::{Path, PathBuf};

/// Every text of the examples: outlines, programs to infer from, and those of an update.
fn texts() -> Vec<(PathBuf, String)> {
    let root = Path::new(env!("CARGO_MANIFEST_DIR")).join("../../examples");
    let mut all = Vec::new();
    for folder in [root.clone(), root.join("infer"), root.join("update")] {
        for entry in std::fs::read_dir(folder).expect("the examples") {
            let path = entry.expect("a file").path();
            if path.extension().is_some_and(|end| end == "outline" || end == "program") {
                let text = std::fs::read_to_string(&path).expect("a text");
                all.push((path, text));
            }
        }
    }
    all.sort();
    assert!(all.len() > 90, "{}", all.len());
    all
}

fn comments(text: &str) -> Vec<String> {
    let behind = |line: &str| line.find('#').map(|at| line[at..].trim_end().to_string());
    text.lines().filter_map(behind).collect()
}

/// The image that `build` makes; the search is cut short, in both texts alike.
fn image(text: &str) -> Vec<u8> {
    let source = parse(text).expect("a text without mistakes");
    let built = build_past_failures(&source, 200_000).expect("an image");
    to_bytes(&built.image).expect("bytes")
}

fn words(text: &str) -> Vec<String> {
    tokens(text).list.iter().map(|(token, _)| token.shown()).collect()
}

#[test]
fn examples_keep_their_images_and_comments() {
    let mut changed = 0;
    for (path, text) in texts() {
        let out = formatted(&text).unwrap_or_else(|e| panic!("{}: {e:?}", path.display()));
        assert_eq!(words(&out), words(&text), "{}", path.display());
        assert_eq!(comments(&out), comments(&text), "{}", path.display());
        assert_eq!(formatted(&out).expect("formatted"), out, "{}", path.display());
        if out != text && path.extension().is_some_and(|end| end == "outline") {
            changed += 1;
            assert_eq!(image(&out), image(&text), "{}", path.display());
        }
    }
    // The examples are nearly all in their usual layout; what is not is built twice above.
    assert!(changed < 20, "{changed}");
}

/// A layout that nobody would choose: each token on a line, or as many on a line as comments allow.
fn scrambled(text: &str, gap: &str) -> String {
    let mut out = String::new();
    for line in text.lines() {
        let one_line = tokens(line).list;
        for (token, _) in &one_line[..one_line.len() - 1] {
            out += &format!("{}{gap}", token.shown().trim_matches('`'));
        }
        if let Some(at) = line.find('#') {
            out += &format!("{}\n", &line[at..]);
        }
    }
    out
}

#[test]
fn any_layout_is_put_in_order() {
    for (path, text) in texts() {
        for gap in [" ", "\n", "\n\n\n\t"] {
            let bad = scrambled(&text, gap);
            let out = formatted(&bad).unwrap_or_else(|e| panic!("{}: {e:?}", path.display()));
            assert_eq!(words(&out), words(&text), "{}", path.display());
            assert_eq!(comments(&out), comments(&text), "{}", path.display());
            assert_eq!(formatted(&out).expect("formatted"), out, "{}", path.display());
            assert!(!out.contains("\n\n\n") && !out.lines().any(|line| line.ends_with(' ')));
        }
    }
}

const BAD: &str = "# Head\n\n\nrange   8 word x=0 # start\nword  yy=( # no\n";

const UGLY: &str =
    "# Head\n\n\n\nrange   4 word x=0  # start\nword yy = 0 # other\nlet L=test a=1 # c
thread t registers a, b poll:{ (a=0) # why
and b=0}  a<-acq x { L }   if a=0 goto poll   # again
  # the end
{a != 0\n}
never t poll and u 0
thread u x:=rel 1 yy := 2\nproof fact{a=1}to{true}
# last
";

const NICE: &str = "# Head

range 4
word x = 0      # start
word yy = 0     # other
let L = test a = 1  # c

thread t
  registers a, b
  poll: { (a = 0)  # why
    and b = 0 }
    a <-acq x
  { L }
    if a = 0 goto poll  # again
  # the end
  { a != 0
  }
never t poll and u 0

thread u
    x :=rel 1
    yy := 2

proof
  fact { a = 1 } to { true }
# last
";

#[test]
fn the_layout_is_this() {
    let nice = NICE.replace("word x = 0      #", "word x = 0          #");
    let nice = nice.replace("word yy = 0     #", "word yy = 0         #");
    assert_eq!(formatted(UGLY).expect("formatted"), nice);
    assert_eq!(formatted(&nice).expect("formatted"), nice);
    let windows = UGLY.replace('\n', "\r\n");
    assert_eq!(formatted(&windows).expect("formatted"), nice);
}

#[test]
fn files_are_formatted_in_place() {
    let folder = Folder::new("fmt");
    let ugly = folder.with("ugly.outline", UGLY);
    let (status, out, err) = run(&["fmt", "--check", &ugly]);
    assert_eq!((status, err.as_str()), (1, ""));
    assert_eq!(out, format!("{ugly}: would be formatted\n"));
    assert_eq!(std::fs::read_to_string(&ugly).expect("a file"), UGLY);
    let (status, out, _) = run(&["fmt", &ugly]);
    assert_eq!((status, out), (0, format!("{ugly}: formatted\n")));
    let text = std::fs::read_to_string(&ugly).expect("a file");
    assert_eq!(text, formatted(UGLY).expect("formatted"));
    for args in [&["fmt", &ugly][..], &["fmt", "--check", &ugly]] {
        assert_eq!(run(args), (0, format!("{ugly}: unchanged\n"), String::new()));
    }
    let (status, out, err) = told(fed(&["fmt", "-"], UGLY.as_bytes()));
    assert_eq!((status, out, err.as_str()), (0, text, "standard input: formatted\n"));
    assert_eq!(told(fed(&["fmt", "--check", "-"], UGLY.as_bytes())).0, 1);
}

/// A text with a mistake stays as it is, and so does what is no text; files beside it are formatted.
#[test]
fn what_cannot_be_read_stays_as_it_is() {
    let folder = Folder::new("fmt-bad");
    let (bad, good) = (folder.with("bad.outline", BAD), folder.with("good.outline", UGLY));
    let (status, out, err) = run(&["fmt", &bad, &folder.file("none.outline"), &good]);
    assert_eq!((status, out), (2, format!("{good}: formatted\n")));
    assert!(err.starts_with(&format!("{bad}:5:10: ")) && err.contains("none.outline: "), "{err}");
    assert_eq!(std::fs::read_to_string(&bad).expect("a file"), BAD);
    let image = folder.with("i.image", "\0\0");
    let (status, _, err) = run(&["fmt", &image]);
    assert!(status == 2 && err.contains("this is an image"), "{err}");
    assert_eq!(run(&["fmt"]).0, 2);
    let (status, out, _) = told(fed(&["fmt", "-"], b"thread \xff"));
    assert_eq!((status, out.as_str()), (2, ""));
}
