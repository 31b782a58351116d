//! `explore` and `draw --outcome`: three answers, each with its word and its status. Never is said only where all states were seen.

mod program;

use program::{example, run, told, Folder};
use std::path::PathBuf;
use std::process::Command;

const HAPPENS: i32 = 1;
const NEVER: i32 = 0;
const NOT_FOUND: i32 = 3;

fn outline(name: &str) -> String {
    let folder = PathBuf::from(env!("CARGO_MANIFEST_DIR")).join("tests/outlines");
    folder.join(name).to_string_lossy().into_owned()
}

/// The status and the first line of what is told.
fn first(args: &[&str]) -> (i32, String) {
    let (status, out, err) = run(args);
    assert_eq!(err, "", "{args:?}");
    (status, out.lines().next().unwrap_or_default().to_string())
}

fn asked(name: &str, more: &[&str]) -> (i32, String) {
    first(&[&["explore", &outline(name)], more].concat())
}

#[test]
fn what_a_bound_cut_is_not_found_and_never_never() {
    let cut = |by: &str| (NOT_FOUND, format!("not found: true, in {by}"));
    let seven =
        |more: &[&str]| asked("seven-writes.outline", &[&["--outcome", "true"], more].concat());
    assert_eq!(seven(&[]), cut("350 states, not all there are: cut by --writes 6"));
    assert_eq!(
        seven(&["--writes", "7", "--steps", "6"]),
        cut("440 states, not all there are: cut by --steps 6")
    );
    assert_eq!(
        seven(&["--writes", "7", "--states", "50"]),
        cut("50 states, not all there are: cut by --states 50")
    );
    assert_eq!(seven(&["--writes", "7"]), (HAPPENS, "happens: true, after 7 steps".into()));
    let none = (NEVER, "never: r = 0, in all 650 states".to_string());
    assert_eq!(asked("seven-writes.outline", &["--writes", "7", "--outcome", "r = 0"]), none);
}

/// Within the bounds that go without asking, in less than a gigabyte of addresses.
#[cfg(unix)]
#[test]
fn the_bound_of_states_is_told_and_memory_stays_small() {
    let asked = format!(
        "ulimit -v 1000000; exec {} explore {} --outcome true",
        env!("CARGO_BIN_EXE_outline"),
        outline("four-by-five.outline")
    );
    let (status, out, err) = told(Command::new("sh").args(["-c", &asked]).output().expect("run"));
    let want = "not found: true, in 2000000 states, not all there are: cut by --states 2000000\n";
    assert_eq!((status, out.as_str(), err.as_str()), (NOT_FOUND, want, ""));
}

#[test]
fn a_run_that_a_trace_shows_is_not_called_impossible() {
    let text = outline("false-never.outline");
    let far = ["--steps", "400", "--writes", "40", "--states", "100000", "--outcome", "p = 15"];
    let want = "not found: p = 15, in 100000 states, not all there are: cut by --states 100000";
    assert_eq!(asked("false-never.outline", &far), (NOT_FOUND, want.into()));
    let (status, out, _) = run(&["replay", &text, &outline("false-never.trace")]);
    assert!(status == 0 && out.contains("\n     then p = 15, "), "{out}");
}

#[test]
fn claims_and_assertions_have_the_same_three_answers() {
    let broken = "FALSE: a run of 14 steps breaks a claim".to_string();
    let claims = |more: &[&str]| {
        run(&[&["explore", &outline("four-by-five-claims.outline")], more].concat())
    };
    for args in [&["--claims", "--states", "1000"][..], &["--states", "1000"]] {
        let (status, out, _) = claims(args);
        let want =
            "not found: nothing is false in 1000 states, not all there are: cut by --states 1000\n\
            not met in these: a at point 7 and b at point 7\n";
        assert_eq!((status, out.as_str()), (NOT_FOUND, want), "{args:?}");
    }
    assert_eq!(asked("four-by-five-claims.outline", &["--claims"]), (HAPPENS, broken));
    let (status, out, _) = run(&["explore", &example("peterson-claim"), "--claims"]);
    let lines: Vec<&str> = out.lines().collect();
    assert!(status == NEVER && lines[0].starts_with("holds in all "), "{out}");
    assert_eq!(lines[1..], ["never: ann at inside and bob at inside"]);
    let (status, _, err) = run(&["explore", &example("polling"), "--claims"]);
    assert_eq!((status, err), (2, format!("{}: it makes no claim\n", example("polling"))));
}

#[test]
fn the_answers_have_three_words_in_json() {
    let json = |more: &[&str]| {
        let (status, out, _) =
            run(&[&["explore", &outline("seven-writes.outline"), "--json"], more].concat());
        let at = out.find("\"answer\":").expect("an answer");
        (status, out[at..].split_once(",\"told\"").expect("lines").0.to_string())
    };
    let fields = |word: &str, states: usize, cut: &str| {
        format!("\"answer\":\"{word}\",\"states\":{states},\"cut\":[{cut}]")
    };
    assert_eq!(json(&["--outcome", "true"]), (NOT_FOUND, fields("not found", 350, "\"writes\"")));
    assert_eq!(json(&[]), (NOT_FOUND, fields("not found", 350, "\"writes\"")));
    let all = ["--writes", "7"];
    assert_eq!(json(&all), (NEVER, fields("holds", 650, "")));
    assert_eq!(
        json(&[&all[..], &["--outcome", "r = 0"]].concat()),
        (NEVER, fields("never", 650, ""))
    );
    let (status, happens) = json(&[&all[..], &["--outcome", "r = 6"]].concat());
    assert!(
        status == HAPPENS && happens.starts_with("\"answer\":\"happens\",\"states\":"),
        "{happens}"
    );
    assert!(happens.ends_with(",\"cut\":[]"), "{happens}");
}

#[test]
fn a_drawing_that_is_not_found_has_the_status_of_it() {
    let folder = Folder::new("draw-cut");
    let svg = folder.file("run.svg");
    let draw = |more: &[&str]| {
        let file = outline("seven-writes.outline");
        first(&[&["draw", &file, "-o", &svg, "--outcome", "true"], more].concat())
    };
    let want =
        "nothing is drawn: not found: true, in 350 states, not all there are: cut by --writes 6";
    assert_eq!(draw(&[]), (NOT_FOUND, want.into()));
    assert!(!PathBuf::from(&svg).exists());
    assert_eq!(draw(&["--writes", "7"]), (HAPPENS, format!("{svg}: happens: true, after 7 steps")));
    let open = folder.with("open.outline", OPEN);
    let seen = "(11 states, not all there are: cut by --writes 6)";
    let cut = format!(
        "nothing is drawn: NOT PROVED: no run was seen that breaks an assertion or a claim {seen}"
    );
    assert_eq!(first(&["draw", &open, "-o", &svg]), (NOT_FOUND, cut));
    let (status, _, err) = run(&["build", &open, "-o", "-"]);
    let cut = format!("; no run was seen that breaks it {seen}\n");
    assert!(status == 1 && err.contains(&cut) && !err.contains("no run breaks"), "{err}");
}

/// The seventh round breaks the assertion of point 1: its write is the eighth in a row, and out of sight behind six.
const OPEN: &str = "word x = 0
thread a
  registers n
  { true }
    x := 1 | n := n + 1
  { n != 7 }
    if true goto 0
  { false }
";

#[test]
fn an_option_is_given_once() {
    let text = outline("seven-writes.outline");
    let (status, out, err) = run(&["explore", &text, "--outcome", "true", "--outcome", "false"]);
    let want = "`--outcome` is given twice; once is enough\n";
    assert_eq!((status, out.as_str(), err.as_str()), (2, "", want));
    // Asked for JSON, the tool says so in JSON.
    let (status, out, _) = run(&["check", &text, "--json", "--json"]);
    let told = r#""error":"`--json` is given twice; once is enough""#;
    assert_eq!((status, out.contains(told)), (2, true), "{out}");
    let (status, _, err) = run(&["explore", &text, "--claims", "--outcome", "true"]);
    assert_eq!(
        (status, err.as_str()),
        (2, "`--claims` and `--outcome` are two questions: ask one\n")
    );
    let (status, _, err) = run(&["explore", &text, "--states", "8000001"]);
    assert_eq!(
        (status, err.as_str()),
        (2, "`--states` wants a number up to 8000000, found `8000001`\n")
    );
}
