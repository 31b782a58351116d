//! "Is my program wrong, or my proof?": what `build` says first, and what it says of each open obligation.

mod program;

use program::{example, run, Folder};

/// What `build` says of a text on standard error.
fn said(test: &str, text: &str) -> String {
    let folder = Folder::new(test);
    let file = folder.with("o.outline", text);
    let (status, out, err) = run(&["build", &file, "-o", &folder.file("o.image")]);
    assert_eq!((status, out.as_str()), (1, ""), "{err}");
    err
}

fn first_line(text: &str) -> &str {
    text.lines().next().unwrap_or_default()
}

/// A claim that is broken comes before a last assertion that is broken in fewer steps.
#[test]
fn a_broken_claim_comes_first() {
    let text = "word x = 0
never a on and b on
thread a
  { true }
    x := 1
  on: { a sees [x = 2] }
thread b
  { true }
    x := 2
  on: { b sees [x = 2] }
";
    let err = said("claim-first", text);
    let want = "PROGRAM WRONG: a run of 2 steps breaks a claim: never a at on and b at on";
    assert_eq!(first_line(&err), want);
    assert!(err.contains("  FALSE        a run of 1 step breaks it\n"), "{err}");
}

/// The claim has its line: a run that breaks it is told all the same.
#[test]
fn a_claim_that_has_its_line_is_looked_at_too() {
    let file = concat!(env!("CARGO_MANIFEST_DIR"), "/tests/outlines/both-inside.outline");
    let (status, _, err) = run(&["build", file, "-o", "-"]);
    let want =
        "PROGRAM WRONG: a run of 5 steps breaks a claim: never north at inside and south at inside";
    assert_eq!((status, first_line(&err)), (1, want));
    assert!(!err.contains("open: claim"), "{err}");
    let (_, out, _) = run(&["explain", file]);
    let claim = "29. claim, never thread 1 (north) point 2 ";
    let told = out.lines().find(|line| line.starts_with(claim)).expect("the claim is told");
    assert!(told.ends_with(" is there; nothing follows while others are open"), "{told}");
    assert_eq!(out.matches(" is there; nothing follows while others are open\n").count(), 26);
    assert_eq!(out.matches(": it names no line\n").count(), 3);
}

#[test]
fn a_last_assertion_comes_before_those_on_the_way() {
    let err = run(&["build", &example("three-threads-wrong-1"), "-o", "-"]).2;
    let want = "PROGRAM WRONG: a run of 7 steps breaks third's last assertion: c != 1 or d = 1";
    assert_eq!(first_line(&err), want);
    assert!(err.contains("  FALSE        a run of 5 steps breaks it\n"), "{err}");
}

#[test]
fn a_false_helper_is_the_outline_s_fault() {
    let text = "word x = 0
thread a
  { true }
    x := 1
  { a sees [x = 2] }
    x := 1
  { a sees [x = 1] }
";
    let err = said("helper", text);
    let want = "OUTLINE FALSE: a run of 1 step breaks the assertion of a at point 1: a sees [x = 2]; no run breaks a last assertion (all 3 states)";
    assert_eq!(first_line(&err), want);
}

/// Every wrong variant breaks its program or its outline, and is told so first.
#[test]
fn wrong_variants_are_never_called_unproved() {
    let folder = concat!(env!("CARGO_MANIFEST_DIR"), "/../../examples");
    let mut wrong = [0, 0];
    for entry in std::fs::read_dir(folder).expect("the examples are there") {
        let path = entry.expect("readable").path().to_string_lossy().into_owned();
        if path.contains("-wrong-") && path.ends_with(".outline") {
            let err = run(&["build", &path, "-o", "-"]).2;
            let which = ["PROGRAM WRONG: ", "OUTLINE FALSE: "];
            let at = which.iter().position(|head| err.starts_with(head));
            wrong[at.unwrap_or_else(|| panic!("{path}: {err}"))] += 1;
        }
    }
    assert!(wrong[0] >= 30 && wrong[1] >= 5, "{wrong:?}");
}

/// Seven writes of a word are more than are looked at: what was not seen is not called true.
#[test]
fn what_was_cut_is_not_called_true() {
    let writes = |n: usize| "    x := 1\n  { true }\n".repeat(n);
    let text = format!(
        "word x = 0\nthread a\n  registers r\n  {{ true }}\n{}    r <- x\n  {{ r = 1 }}\nthread b\n  {{ true }}\n{}",
        writes(3),
        writes(3)
    );
    let err = said("cut", &text);
    let seen = first_line(&err);
    assert!(
        seen.starts_with("NOT PROVED: no run was seen that breaks an assertion or a claim ("),
        "{err}"
    );
    assert!(seen.ends_with(" states, not all there are: cut by --writes 6)"), "{err}");
    assert!(!err.contains("no run breaks") && !err.contains("(all "), "{err}");
    let folder = Folder::new("cut-page");
    let file = folder.with("o.outline", &text);
    let (_, _, err) = run(&["build", &file, "-o", "-", "--writes", "7"]);
    let all = "NOT PROVED: no run breaks an assertion or a claim (all 62 states)";
    assert_eq!(first_line(&err), all);
    let (_, page, _) = run(&["report", &file, "-o", "-"]);
    assert!(page.contains("It is not proved: no run was seen that breaks "), "{page}");
    assert!(!page.contains("no run breaks") && !page.contains("(all "), "{page}");
}

/// False, not provable, not found: in this order, whatever the order of the obligations.
#[test]
fn what_is_open_is_told_by_what_is_known_of_it() {
    let text = "word x = 0
word y = 0
thread a
  registers r, s
  { a sees [not cov x] }
    r <- x
  { true }
    s <- x
  { s = 0 }
    r <- y
  { r = 1 or r = 0 }
    y := 3
  { true }
";
    let err = said("ranks", text);
    assert!(first_line(&err).starts_with("NOT PROVED: "), "{err}");
    let kinds = err.lines().skip_while(|line| !line.starts_with("open: ")).collect::<Vec<_>>();
    let behind = kinds.windows(2).filter(|pair| pair[0].starts_with("open: "));
    let ranks: Vec<&str> = behind.map(|pair| &pair[1][2..14]).collect();
    assert_eq!(ranks, ["not provable", "not provable", "not found   "], "{err}");
    let state = "  not provable the left side allows a state that breaks it; no run breaks it (all 5 states)
         r = 0, s = 0
         x was written 1
         y was written 0
      1. a: s <- x   reads 1 from write 1
";
    assert!(err.contains(state), "{err}");
}

/// What the rules do show has no state that breaks it: none of the lines of the examples is called not provable.
#[test]
fn no_line_is_refuted() {
    use outline::refuted::refutation;
    use reference::checker::rules::justified_lines;
    let mut tried = 0;
    for name in ["message-passing", "peterson-claim", "ticket-lock", "exchange-lock", "rcu"] {
        let text = std::fs::read_to_string(example(name)).expect("readable");
        let source = outline::text::parse_source::parse(&text).expect("a source");
        let bytes = outline::build::build(&source).expect("built").image.bytes();
        let image = reference::checker::decode(&bytes).expect("an image");
        assert!(justified_lines(&image).iter().all(|line| *line));
        for duty in reference::checker::obligations::duties(&image.program.threads) {
            let found = refutation(&image.program, &duty.wanted(&image.program), 400);
            assert!(found.is_none(), "{name}: {duty:?}: {found:?}");
            tried += 1;
        }
    }
    assert!(tried > 100);
}
