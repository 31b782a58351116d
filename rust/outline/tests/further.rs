//! `--further`: outlines that only further rules reach. The answer is no verdict, and no image is written.

mod program;

use outline::build::build_past_failures;
use outline::search::budget::TRIES;
use outline::text::parse_source::parse;
use program::{example, run, Folder};
use reference::checker::check;
use reference::checker::further::{decode, judge};
use reference::checker::rules::{further, Rules};
use std::path::Path;

const FIRST: &str = "NO VERDICT BY THE PUBLISHED RULES: ";

/// The programs beyond the published rules that are accepted, with the rules that they need.
const REACHED: [(&str, &[u8]); 4] = [
    ("rrc-two-writers", &[54, 55, 56, 57]),
    ("ticket-wait", &[52]),
    ("peterson-joint", &[53]),
    ("corr2-stronger", &[53, 54, 55, 56, 57]),
];

fn text(name: &str) -> String {
    std::fs::read_to_string(example(name)).expect("an example")
}

#[test]
fn programs_beyond_the_published_rules_are_reached() {
    for (name, rules) in REACHED {
        let mut source = parse(&text(name)).expect("an outline");
        source.rules = Rules::WithFurther;
        let built = build_past_failures(&source, TRIES).expect("built");
        let bytes = built.image.bytes();
        let judgement = judge(&bytes);
        assert!(built.open.is_empty() && judgement.accepted, "{name}");
        assert_eq!(judgement.used, rules, "{name}");
        // The published checker does not know the rules: the first such line is out of range.
        assert_eq!(check(&bytes).code, 6, "{name}");
    }
}

/// An outline that the published rules reach has the same image with further rules at hand.
#[test]
fn what_the_published_rules_reach_stays_as_it_is() {
    for name in ["message-passing", "peterson-claim", "ticket-lock", "rrc", "trade", "parity"] {
        let mut source = parse(&text(name)).expect("an outline");
        let published = build_past_failures(&source, TRIES).expect("built").image;
        source.rules = Rules::WithFurther;
        assert_eq!(build_past_failures(&source, TRIES).expect("built").image, published, "{name}");
    }
}

/// No wrong variant of the gallery is reached: they are false, and the further rules are sound.
#[test]
fn what_is_wrong_stays_open() {
    let folder = Path::new(env!("CARGO_MANIFEST_DIR")).join("../../examples");
    let mut count = 0;
    for file in std::fs::read_dir(folder).expect("examples") {
        let path = file.expect("a file").path();
        let name = path.file_stem().expect("a name").to_string_lossy().into_owned();
        let is_outline = path.extension().is_some_and(|e| e == "outline");
        if !is_outline || !name.contains("-wrong-") {
            continue;
        }
        let mut source = parse(&text(&name)).expect("an outline");
        source.rules = Rules::WithFurther;
        let built = build_past_failures(&source, TRIES / 10).expect("built");
        assert!(!built.open.is_empty() && !judge(&built.image.bytes()).accepted, "{name}");
        count += 1;
    }
    assert!(count > 40);
}

#[test]
fn check_says_first_that_it_is_no_verdict() {
    for (name, rules) in REACHED {
        let file = example(name);
        let (status, out, err) = run(&["check", &file, "--further"]);
        assert!(status == 4 && err.is_empty(), "{out}{err}");
        let named: Vec<String> = rules.iter().map(u8::to_string).collect();
        let first = out.lines().next().expect("a line");
        assert!(first.starts_with(&format!("{file}: {FIRST}with further rule")), "{first}");
        assert!(named.iter().all(|rule| first.contains(rule)), "{first}");
        assert!(first.ends_with("(independent checker)") && !out.contains("ACCEPTED"), "{out}");
        assert!(out.contains("\n  by the published rules: REFUSED: "), "{out}");
        assert_eq!(run(&["check", &file]).0, 1);
    }
}

#[test]
fn check_of_what_stays_open_and_of_what_needs_none() {
    let (status, out, _) = run(&["check", &example("corr2"), "--further"]);
    assert_eq!(status, 1);
    assert!(
        out.contains(&format!("{FIRST}with further rules 53, 54, 55, 56 and 57, 2 of 54")),
        "{out}"
    );
    let (status, out, _) = run(&["check", &example("coherence"), "--further"]);
    assert_eq!(status, 0);
    assert!(out.contains(": ACCEPTED: ") && out.contains("by the published rules alone"), "{out}");
    let (status, out, _) = run(&["check", &example("message-passing-wrong-1"), "--further"]);
    assert!(status == 1 && out.contains("further rules meet nothing more"), "{out}");
    let files = [example("coherence"), example("ticket-wait"), example("corr2")];
    let words: Vec<&str> = files.iter().map(String::as_str).collect();
    let (status, out, _) = run(&[&["check", "--further"], &words[..]].concat());
    let last =
        "3 files: 1 accepted, 1 without a verdict by the published rules, 1 refused, 0 not judged";
    assert!(status == 1 && out.contains(last), "{out}");
    assert_eq!(run(&["check", "--further", &files[0], &files[1]]).0, 4);
}

#[test]
fn json_cannot_be_taken_for_a_verdict() {
    let (status, out, _) = run(&["check", &example("ticket-wait"), "--further", "--json"]);
    assert_eq!(status, 4);
    for part in [
        "\"status\":4,",
        "\"accepted\":false,",
        "\"fields\":[20,",
        "\"words\":\"REFUSED: ",
        "\"further\":{\"rules\":[52],\"met\":true,\"words\":\"NO VERDICT BY THE PUBLISHED RULES: ",
    ] {
        assert!(out.contains(part), "{part}: {out}");
    }
    let (status, out, _) = run(&["build", &example("ticket-wait"), "--further", "--json"]);
    assert!(status == 4 && out.contains("\"accepted\":false,"), "{out}");
    assert!(out.contains("\"further\":{\"rules\":[52],\"met\":true,"), "{out}");
    let (_, out, _) = run(&["check", &example("coherence"), "--further", "--json"]);
    assert!(out.contains("\"accepted\":true,") && out.contains("\"further\":null"), "{out}");
    let (_, out, _) = run(&["check", &example("coherence"), "--json"]);
    assert!(!out.contains("\"further\":"), "{out}");
}

#[test]
fn no_image_has_a_further_rule() {
    let folder = Folder::new("further-image");
    let image = folder.file("x.image");
    let (status, out, err) = run(&["build", &example("ticket-wait"), "--further", "-o", &image]);
    assert_eq!((status, err.as_str()), (4, ""), "{out}");
    let told = format!(
        "{image}: no image is written: lines go by further rule 52, and those of an image by published rules"
    );
    assert!(out.starts_with(FIRST) && out.lines().nth(1) == Some(&told), "{out}");
    assert!(!Path::new(&image).exists());
    // To standard output neither.
    let (status, out, _) = run(&["build", &example("ticket-wait"), "--further", "-o", "-"]);
    assert!(status == 4 && out.starts_with(FIRST), "{out}");
    // By published rules alone the image is written, and it is that of the build without the option.
    let (status, out, _) = run(&["build", &example("coherence"), "--further", "-o", &image]);
    assert!(status == 0 && out.contains("no line goes by a further rule"), "{out}");
    let bytes = std::fs::read(&image).expect("written");
    assert_eq!(run(&["build", &example("coherence"), "-o", &image]).0, 0);
    assert_eq!(std::fs::read(&image).expect("written"), bytes);
    // Without -o nothing is written, and what is so is told.
    let (status, out, _) = run(&["build", &example("coherence"), "--further"]);
    assert!(
        status == 0 && out.contains("ACCEPTED: ") && out.contains("nothing is written without -o"),
        "{out}"
    );
}

/// A certificate that is written out may have lines by further rules. Without the option they are out of range.
const WRITTEN: &str = "word x = 0
thread only
  { only sees one x & [x = 0] } @1
    x := 2 @3
  { only sees [x = 0] ; one x = 2 } @2
certificate
  formula 1: assertion only sees one x & [x = 0]
  formula 2: assertion only sees [x = 0] ; one x = 2
  formula 3: value 2
  formula 4: assertion start
  line 1: rule 26 4 to 1
  line 2: rule 54 at only 0 1 to 2
  obligations 1 2
";

#[test]
fn a_certificate_that_is_written_out_is_judged_by_both_sets() {
    let folder = Folder::new("further-written");
    let file = folder.with("w.outline", WRITTEN);
    let (status, out, _) = run(&["check", &file, "--further"]);
    assert!(
        status == 4 && out.contains("with further rule 54, all of 2 obligations are met"),
        "{out}"
    );
    let (status, out, _) = run(&["check", &file]);
    assert!(status == 1 && out.contains("a number is out of range (code 6)"), "{out}");
    let image = folder.file("w.image");
    let (status, _, err) = run(&["build", &file, "-o", &image]);
    assert!(
        status == 2 && err.contains("no image is written: lines go by further rule 54"),
        "{err}"
    );
    assert!(!Path::new(&image).exists());
    let wrong =
        folder.with("wrong.outline", &WRITTEN.replace("one x & [x = 0]", "[x = 0] & one x"));
    let (status, out, _) = run(&["check", &wrong, "--further"]);
    assert!(status == 1, "{out}");
    let (status, out, err) = run(&["build", &wrong, "--further"]);
    assert!(status == 1 && out.starts_with(FIRST) && err.is_empty(), "{out}{err}");
}

/// A step may be named by a further rule, with its premise found.
const NAMED: &str = "word x = 0
thread first
  { true }
    x := 1
  { true }
thread second
  { true }
    x := 2
  { true }
proof
  part one x = 0 ; [false] in one x = 0 by 57
  fact { first sees [x = 1] and second sees [x = 2] } to { false } by 53
  step second 0: { first sees (one x = 0 & one x) ; one x = 1 } to
    { first sees (one x = 0 ; (one x = 2 ; one x = 1)) | (one x = 0 ; ([x = 1] ; one x = 2)) } by 55
";

#[test]
fn named_steps_may_go_by_further_rules() {
    let folder = Folder::new("further-named");
    let file = folder.with("n.outline", NAMED);
    let (status, out, err) = run(&["build", &file, "--further"]);
    assert!(status == 0, "{out}{err}");
    let (status, _, err) = run(&["build", &file, "-o", &folder.file("n.image")]);
    assert!(status == 1 && err.contains("3 named steps were not found"), "{err}");
    assert!(err.contains("this step of the proof was not found by rule 57"), "{err}");
}

const TWO_WRITERS: &str = "word x = 0
thread first
  { ? }
    x := 1
  { true }
thread second
  { ? }
    x := 2
  { true }
thread reader
  registers a, b
  { ? }
    a <- x
  { ? }
    b <- x
  { a = 1 and b = 2 => reader sees one x = 2 }
";

#[test]
fn infer_finds_what_further_rules_reach() {
    let folder = Folder::new("further-infer");
    let asked = folder.with("two.program", TWO_WRITERS);
    let (found, image) = (folder.file("two.outline"), folder.file("two.image"));
    assert_eq!(run(&["infer", &asked, "-o", &found]).0, 3);
    let words = ["infer", &asked, "-o", &found, "--image", &image, "--further"];
    let (status, out, err) = run(&words);
    assert!(status == 4 && err.is_empty(), "{out}{err}");
    assert!(
        out.starts_with(FIRST) && out.contains("no image is written: lines go by further"),
        "{out}"
    );
    assert!(!Path::new(&image).exists());
    let outline = std::fs::read_to_string(&found).expect("written");
    assert!(outline.starts_with(&format!("# {FIRST}found with further rules ")), "{outline}");
    assert_eq!(run(&["check", &found]).0, 1);
    assert_eq!(run(&["check", &found, "--further"]).0, 4);
    // Holes are filled for check and build too.
    let (status, out, _) = run(&["check", &asked, "--further"]);
    assert!(status == 4 && out.contains(FIRST), "{out}");
    let (status, out, _) = run(&["build", &asked, "--further"]);
    assert!(status == 4 && out.starts_with(FIRST), "{out}");
    let (_, out, _) = run(&["infer", &asked, "-o", &found, "--further", "--json"]);
    assert!(
        out.contains("\"status\":4,") && out.contains("\"answer\":\"found by further rules\""),
        "{out}"
    );
}

#[test]
fn litmus_proves_with_further_rules() {
    let file = format!("{}/../../examples/litmus/XCHG2.litmus", env!("CARGO_MANIFEST_DIR"));
    let (status, out, _) = run(&["litmus", &file, "--prove"]);
    assert!(status == 3 && !out.contains(FIRST), "{out}");
    let (status, out, _) = run(&["litmus", &file, "--prove", "--further"]);
    assert_eq!(status, 4);
    assert!(
        out.starts_with(&format!("{FIRST}XCHG2 is proved with further rule 53\nTest XCHG2 ")),
        "{out}"
    );
    assert!(out.contains("\nProved with further rule 53   (independent checker)\n"), "{out}");
    let (_, out, _) = run(&["litmus", &file, "--prove", "--further", "--json"]);
    for part in ["\"status\":4,", "\"answer\":\"proved with further rules\"", "\"further\":[53]"] {
        assert!(out.contains(part), "{out}");
    }
}

#[test]
fn misuse_is_refused() {
    let folder = Folder::new("further-misuse");
    let (outline, image) = (example("coherence"), folder.file("c.image"));
    assert_eq!(run(&["build", &outline, "-o", &image]).0, 0);
    let (status, out, _) = run(&["check", &image, "--further"]);
    let told =
        "NOT JUDGED: an image has lines by published rules only: it is judged without `--further`";
    assert!(status == 2 && out.contains(told), "{out}");
    for option in ["--partial", "--all-lines"] {
        let (status, _, err) = run(&["build", &outline, "-o", &image, "--further", option]);
        assert!(
            status == 2 && err.contains("`--further` writes no image with open obligations"),
            "{err}"
        );
    }
    let (status, _, err) = run(&["litmus", "x.litmus", "--further"]);
    assert!(status == 2 && err.contains("`--further` goes with `--prove`"), "{err}");
    for command in ["show", "explain", "explore", "trim", "report"] {
        let (status, _, err) = run(&[command, &outline, "--further"]);
        assert!(status == 2 && err.contains("`--further` is no option here"), "{command}: {err}");
    }
    let (status, _, err) = run(&["check", &outline, "--further", "--further"]);
    assert!(status == 2 && err.contains("given twice"), "{err}");
}

/// Every line that the search finds by a further rule is one that the table gives: the bytes are read and judged.
#[test]
fn lines_are_told_by_their_rules() {
    let mut source = parse(&text("corr2-stronger")).expect("an outline");
    source.rules = Rules::WithFurther;
    let image = build_past_failures(&source, TRIES).expect("built").image;
    let decoded = decode(&image.bytes()).expect("in order");
    let by: Vec<u8> = decoded.lines.iter().map(|line| line.rule).collect();
    assert!(further::rules().filter(|rule| by.contains(rule)).count() == 5);
    assert!(reference::checker::rules::justified_lines(&decoded).iter().all(|line| *line));
}
