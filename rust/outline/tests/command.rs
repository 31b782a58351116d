//! The program: what it prints, and its status.

mod program;

use program::{example, fed, judge, run, told, Folder};
use reference::checker::decode;
use std::io::Write;
use std::path::{Path, PathBuf};
use std::process::{Command, Stdio};

#[test]
fn build_ends_with_the_verdict() {
    let folder = Folder::new("build");
    let image = folder.file("mp.image");
    let (status, out, err) = run(&["build", &example("message-passing"), "-o", &image]);
    let lines: Vec<&str> = out.lines().collect();
    let size = format!("{image}: 2814 bytes, 59 formulas, 101 lines, 18 obligations, 0 open");
    assert_eq!((status, err.as_str()), (0, ""));
    assert_eq!(lines, [size, format!("ACCEPTED: 18 obligations met   ({})", judge())]);
}

#[test]
fn what_is_false_is_told_with_a_run() {
    let folder = Folder::new("false");
    let wrong = example("message-passing-wrong-1");
    let image = folder.file("w.image");
    let (status, out, err) = run(&["build", &wrong, "-o", &image]);
    assert_eq!((status, out.as_str()), (1, ""));
    assert!(!Path::new(&image).exists());
    let lines: Vec<&str> = err.lines().collect();
    let answer = "PROGRAM WRONG: a run of 4 steps breaks reader's last assertion: a != 1 or b = 1";
    assert_eq!((lines[0], lines[4]), (answer, "  4. reader: b <- data   reads 0 from write 1"));
    let place = "open: class 4, thread 2 (reader) point 0 (line 23): not kept by thread 1 (writer) point 1 (line 17)";
    let run = [
        place,
        "  FALSE        a run of 2 steps breaks it",
        "      1. writer: data := 1   writes 1 behind write 1",
        "      2. writer: flag := 1   writes 1 behind write 1",
    ];
    assert_eq!(lines[8..12], run);
    assert!(err.contains("\n  to           Coming\n"), "names of `let` stay names: {err}");
    assert!(err.ends_with("1 of 18 obligations are open; no image is written\n"), "{err}");
}

#[test]
fn every_wrong_variant_is_told_false() {
    let folder = PathBuf::from(env!("CARGO_MANIFEST_DIR")).join("../../examples");
    let mut wrong = 0;
    for entry in std::fs::read_dir(folder).expect("the examples are there") {
        let path = entry.expect("readable").path();
        let name = path.file_stem().expect("named").to_string_lossy().into_owned();
        if name.contains("-wrong-") {
            let (status, _, err) = run(&["build", &path.to_string_lossy(), "-o", "-"]);
            assert!(status == 1 && err.contains("\n  FALSE        "), "{name}: {err}");
            wrong += 1;
        }
    }
    assert!(wrong >= 40);
}

#[test]
fn what_no_rule_reaches_is_not_told_false() {
    let (status, _, err) = run(&["build", &example("ticket-wait"), "-o", "-"]);
    assert_eq!(status, 1);
    assert!(!err.contains("FALSE"), "{err}");
    assert!(
        err.starts_with("NOT PROVED: no run breaks an assertion or a claim (all 16 states)\n"),
        "{err}"
    );
    assert!(
        err.contains("  not found    by the search; no run breaks it (all 16 states)\n"),
        "{err}"
    );
}

const TWO_FAIL: &str = "word x = 0
thread a
  { true }
    x := 1
  { true }
proof
  fact { true } to { false }
  step a 0: { true } to { true }
  step a 0: { true } to { a sees [x = 1] }
";

#[test]
fn a_partial_image_goes_past_steps_that_fail() {
    let folder = Folder::new("partial");
    let (text, image) = (folder.with("two.outline", TWO_FAIL), folder.file("two.image"));
    let (status, _, err) = run(&["build", &text, "-o", &image]);
    assert_eq!(status, 1);
    assert!(err.contains(&format!("{text}:7:3: this step of the proof was not found")), "{err}");
    assert!(err.contains(&format!("{text}:9:3: this step of the proof was not found")), "{err}");
    assert!(err.contains("2 named steps were not found, 0 of 2 obligations are open"), "{err}");
    let (status, out, _) = run(&["build", &text, "-o", &image, "--partial"]);
    assert!(status == 0 && out.contains("ACCEPTED: 2 obligations met"), "{out}");
}

#[test]
fn all_open_obligations_are_told_if_asked_for() {
    let wrong = example("rrc-two-writers");
    let full = |args: &[&str]| {
        let (_, _, err) = run(args);
        err.lines().filter(|line| line.starts_with("  instruction ")).count()
    };
    assert_eq!(full(&["build", &wrong, "-o", "-"]), 3);
    assert_eq!(full(&["build", &wrong, "-o", "-", "--all"]), 5);
}

#[test]
fn what_is_open_at_a_point_is_told_if_asked_for() {
    let wrong = example("peterson-data-wrong-2");
    let told = |at: &str| run(&["build", &wrong, "-o", "-", "--at", at]);
    let (status, _, err) = told("ann:inside");
    assert_eq!(status, 1);
    let full: Vec<&str> = err.lines().filter(|line| line.starts_with("  instruction ")).collect();
    assert!(full.is_empty(), "{err}");
    let (_, _, err) = told("ann:look");
    let lines: Vec<&str> = err.lines().collect();
    let at = lines.iter().position(|line| line.starts_with("  instruction ")).expect("one in full");
    assert!(
        lines[..at].iter().any(|line| line.contains("class 4, thread 1 (ann) point 2 ")),
        "{err}"
    );
    assert_eq!(err, told("ann:2").2);
    let (status, _, err) = told("ann:17");
    let want = "`--at` wants THREAD:POINT of this outline, found `ann:17`\n";
    assert_eq!((status, err.as_str()), (2, want));
}

/// Whether a process has a handler of its own for interrupts.
#[cfg(target_os = "linux")]
fn catches_interrupts(process: u32) -> bool {
    let status = std::fs::read_to_string(format!("/proc/{process}/status")).unwrap_or_default();
    let caught = status.lines().find_map(|line| line.strip_prefix("SigCgt:"));
    let caught = caught.and_then(|mask| u64::from_str_radix(mask.trim(), 16).ok());
    caught.is_some_and(|mask| mask & 2 != 0)
}

#[cfg(target_os = "linux")]
#[test]
fn an_interrupt_leaves_the_rest_untried_and_reports() {
    let mut child = Command::new(env!("CARGO_BIN_EXE_outline"))
        .args(["build", "-", "-o", "-"])
        .stdin(Stdio::piped())
        .stdout(Stdio::piped())
        .stderr(Stdio::piped())
        .spawn()
        .expect("run");
    while !catches_interrupts(child.id()) {
        std::thread::yield_now();
    }
    let process = child.id().to_string();
    assert!(Command::new("kill").args(["-INT", &process]).status().expect("kill").success());
    while catches_interrupts(child.id()) {
        std::thread::yield_now();
    }
    let text = std::fs::read(example("polling")).expect("readable");
    child.stdin.take().expect("a pipe").write_all(&text).expect("fed");
    let (status, out, err) = told(child.wait_with_output().expect("run"));
    assert_eq!((status, out.as_str()), (1, ""));
    let want = "standard input: interrupted, 22 were not tried, 0 of 22 obligations are open; no image is written\n";
    assert_eq!(err, want);
}

#[test]
fn check_says_one_line_of_words_and_the_fields() {
    let folder = Folder::new("check");
    let image = folder.file("mp.image");
    run(&["build", &example("message-passing"), "-o", &image]);
    let (status, out, _) = run(&["check", &image]);
    let want =
        format!("{image}: ACCEPTED: 18 obligations met\n  0 0 0 0 0 0 0 0 18   ({})\n", judge());
    assert_eq!((status, out), (0, want));
    let wrong = example("message-passing-wrong-1");
    let (status, out, _) = run(&["check", &wrong]);
    let want = format!(
        "{wrong}: REFUSED: class 4, thread 2 (reader) point 0 (line 23) under thread 1 (writer) \
         point 1 (line 17): it names no line (code 20)\n  20 0 4 2 0 1 1 0 9   ({})\n",
        judge()
    );
    assert_eq!((status, out), (1, want));
}

#[test]
fn check_takes_many_files_and_folders() {
    let folder = Folder::new("many");
    run(&["build", &example("polling"), "-o", &folder.file("b.image")]);
    folder.with("a.outline", "word x = 0\nthread a { a sees [x = 0] }\n");
    folder.with("c.image", "\0");
    folder.with("notes.txt", "no image");
    let all = folder.0.to_string_lossy().into_owned();
    let (status, out, _) = run(&["check", &all]);
    let lines: Vec<&str> = out.lines().collect();
    assert_eq!(status, 1);
    assert!(lines[0].ends_with("a.outline: ACCEPTED: 1 obligation met"), "{out}");
    assert!(lines[2].ends_with("b.image: ACCEPTED: 22 obligations met"), "{out}");
    let cut = "c.image: REFUSED: record 1: its length is cut short or past the end (code 3)";
    assert!(lines[4].ends_with(cut), "{out}");
    let sum = format!("3 files: 2 accepted, 1 refused, 0 not judged ({})", judge());
    assert_eq!(lines[6..], [sum]);
    let (status, out, _) = run(&["check", &folder.file("none.image"), &folder.file("b.image")]);
    assert!(status == 2 && out.contains("none.image: NOT JUDGED: "), "{out}");
}

/// Folders in folders, the first file the slowest: each file is told once, in the order of names, and nothing else.
#[test]
fn check_tells_each_file_once_in_the_order_of_names() {
    let folder = Folder::new("order");
    let slow = std::fs::read_to_string(example("store-buffering")).expect("readable");
    let mut names = Vec::new();
    for inner in ["c", "a", "b"] {
        std::fs::create_dir_all(folder.0.join(inner)).expect("a folder");
        for n in (0..7).rev() {
            let name = format!("{inner}/{n}.outline");
            let quick = "word x = 0\nthread a { a sees [x = 0] }\n";
            names.push(folder.with(&name, if name == "a/0.outline" { &slow } else { quick }));
        }
    }
    names.sort();
    let all = folder.0.to_string_lossy().into_owned();
    let (status, out, err) = run(&["check", &all]);
    let files: Vec<&str> =
        out.lines().filter_map(|l| l.split_once(": ACCEPTED: ")).map(|l| l.0).collect();
    assert_eq!((status, err.as_str()), (0, ""));
    assert_eq!(files, names);
    assert!(
        out.ends_with(&format!("21 files: 21 accepted, 0 refused, 0 not judged ({})\n", judge()))
    );
    let (_, out, err) = run(&["check", &all, "--json"]);
    assert!(err.is_empty() && out.lines().count() == names.len());
    assert!(out
        .lines()
        .zip(&names)
        .all(|(line, name)| line.contains(&format!("\"file\":\"{name}\""))));
}

#[test]
fn standard_input_and_output_are_files_too() {
    let text = std::fs::read(example("polling")).expect("readable");
    let image = fed(&["build", "-", "-o", "-"], &text);
    let (status, out, _) = told(fed(&["check", "-"], &image.stdout));
    assert!(status == 0 && out.starts_with("-: ACCEPTED: 22 obligations met\n"), "{out}");
    let (status, out, _) = told(fed(&["check", "--json", "-"], &image.stdout));
    let want = format!(
        "{{\"version\":1,\"command\":\"check\",\"status\":0,\"file\":\"-\",\"accepted\":true,\
         \"fields\":[0,0,0,0,0,0,0,0,22],\"words\":\"ACCEPTED: 22 obligations met\",\"judge\":\"{}\",\
         \"class\":null,\"places\":[]}}\n",
        judge()
    );
    assert_eq!((status, out), (0, want));
}

#[test]
fn show_says_the_verdict_first_and_repairs_nothing() {
    let text = std::fs::read(example("polling")).expect("readable");
    let image = fed(&["build", "-", "-o", "-"], &text).stdout;
    let shown = fed(&["show", "-"], &image);
    let out = String::from_utf8(shown.stdout.clone()).expect("text");
    assert!(out.starts_with("# ACCEPTED: 22 obligations met\n# 0 0 0 0 0 0 0 0 22"), "{out}");
    assert_eq!(fed(&["build", "-", "-o", "-"], &shown.stdout).stdout, image);
    let (status, out, _) = told(fed(&["show", "-"], &image[..40]));
    assert!(status == 1 && out.starts_with("# REFUSED: record "), "{out}");
    assert_eq!(out.lines().count(), 2);
}

#[test]
fn explain_tells_lines_rules_and_premises() {
    let (status, out, _) = run(&["explain", &example("message-passing")]);
    let lines: Vec<&str> = out.lines().collect();
    assert_eq!(status, 0);
    let want = [
        "1. class 1, thread 1 (writer) point 0 (line 17): given by the start: line 14",
        "  line 14, rule 20: start gives writer sees one data and writer sees one flag and \
         reader sees [data = 0] and reader sees one flag = 0",
        "    line 4, rule 20: start gives writer sees one data",
        "      line 1, rule 26: start gives writer sees one data = 0",
        "      line 3, rule 22: writer sees one data = 0 gives writer sees one data",
        "        line 2, rule 39: one data = 0 in one data",
    ];
    assert_eq!(lines[2..8], want);
    assert_eq!(lines.iter().filter(|l| l.contains(". class ")).count(), 18);
}

#[test]
fn explore_tells_runs_prospects_and_bounds() {
    let (status, out, _) = run(&["explore", &example("message-passing-wrong-1")]);
    let want = "FALSE: a run of 2 steps breaks an assertion
  1. writer: data := 1   writes 1 behind write 1
  2. writer: flag := 1   writes 1 behind write 1
     then a = 0, b = 0
     data was written 0, 1
     flag was written 0, 1
false: reader at point 0: Coming
  not so: Coming
  prospect: (data = 0, flag = 0) then (data = 0, flag = 1) then (data = 1, flag = 1)
";
    assert_eq!((status, out.as_str()), (1, want));
    let (status, out, _) = run(&["explore", &example("message-passing")]);
    assert_eq!((status, out.as_str()), (0, "holds in all 13 states\n"));
    let (status, out, _) = run(&["explore", &example("message-passing"), "--steps", "2"]);
    assert!(
        status == 3 && out.ends_with(" states, not all there are: cut by --steps 2\n"),
        "{out}"
    );
    let (status, out, _) = run(&["explore", &example("message-passing"), "--writes", "1"]);
    assert!(
        status == 3 && out.ends_with(" states, not all there are: cut by --writes 1\n"),
        "{out}"
    );
}

#[test]
fn explore_answers_litmus_questions() {
    let asked = |name: &str, outcome: &str| run(&["explore", &example(name), "--outcome", outcome]);
    let (status, out, _) = asked("message-passing", "a = 1 and b = 0");
    assert_eq!((status, out.as_str()), (0, "never: a = 1 and b = 0, in all 13 states\n"));
    let (status, out, _) = asked("message-passing-wrong-1", "a = 1 and b = 0");
    assert!(status == 1 && out.starts_with("happens: a = 1 and b = 0, after 4 steps\n"), "{out}");
    let (status, _, err) = asked("message-passing", "c = 1");
    assert_eq!(
        (status, err.as_str()),
        (2, "--outcome: a value is wanted, but `c` is not declared\n")
    );
}

/// The right thread never leaves its loop, so it is never at `out`.
const CLAIM: &str = "word x = 0
thread left
  registers a
  { a = 0 }
    x := 1 | a := 1
  after: { a = 1 }
thread right
  { true }
    if true goto 0
  out: { false }
never right out and left after
";

/// Both lines of what is told, the second one with the fields.
fn claimed(file: &str, said: &str, fields: &str) -> String {
    format!("{file}: {said}\n  {fields}   ({})\n", judge())
}

#[test]
fn claims_are_told_when_they_are_shown() {
    let folder = Folder::new("claim");
    let (text, image) = (folder.with("c.outline", CLAIM), folder.file("c.image"));
    let (status, out, err) = run(&["build", &text, "-o", &image]);
    assert_eq!((status, err.as_str()), (0, ""));
    assert!(
        out.contains(" 7 obligations, 1 claim, 0 open\nACCEPTED: 7 obligations met, 1 claim shown"),
        "{out}"
    );
    let (status, out, _) = run(&["check", &image]);
    let said = "ACCEPTED: 7 obligations met, 1 claim shown";
    assert_eq!((status, out), (0, claimed(&image, said, "0 0 0 0 0 0 0 0 7")));
    let (_, out, _) = run(&["explain", &text]);
    let place = "8. claim, never thread 2 (right) point 1 (out, line 10) and thread 1 (left) point 1 (after, line 6): line ";
    let claim: Vec<&str> = out.lines().skip_while(|line| !line.starts_with(place)).collect();
    assert!(claim.len() > 1 && claim[1].ends_with("rule 20: a = 1 and false gives false"), "{out}");
    assert!(out.contains("rule 50: a = 0 then a = 1\n"), "{out}");
    assert!(out.contains("rule 16 of the first half: a = 0 then 1 = 1\n"), "{out}");
    let (_, out, _) = run(&["explain", &text, "--json"]);
    let claims = "\"claims\":[{\"kind\":\"claim\",\"class\":null,\"places\":[{\"thread\":2,\"name\":\"right\",";
    let told = "\"told\":\"claim, never thread 2 (right) point 1 (out, line 10) and ";
    assert!(out.contains(claims) && out.contains(told), "{out}");
    let (_, out, _) = run(&["show", &image]);
    assert!(out.contains("    w1 := 1 @1 | r1 := 1 @1\n"), "{out}");
    assert!(out.contains("\nnever t2 1 and t1 1\n\ncertificate\n"), "{out}");
    assert!(out.lines().last().is_some_and(|line| line.starts_with("  claims ")), "{out}");
    let want = "holds in all 2 states\nnever: right at out and left at after\n";
    assert_eq!(run(&["explore", &text]).1, want);
    assert_eq!(run(&["explore", &text, "--claims"]).1, want);
}

#[test]
fn claims_that_fail_are_told_with_a_run() {
    let folder = Folder::new("no-claim");
    let text = folder.with("c.outline", &CLAIM.replace("right out", "right 0"));
    let image = folder.file("c.image");
    let (status, out, err) = run(&["build", &text, "-o", &image]);
    assert_eq!((status, out.as_str()), (1, ""));
    let want = format!(
        "PROGRAM WRONG: a run of 1 step breaks a claim: never right at point 0 and left at after
  1. left: x := 1 | a := 1   writes 1 behind write 1, gives 1
     then a = 1
     x was written 0, 1
open: claim, never thread 2 (right) point 0 (line 8) and thread 1 (left) point 1 (after, line 6)
  FALSE        a run of 1 step breaks it
      1. left: x := 1 | a := 1   writes 1 behind write 1, gives 1
         then a = 1
         x was written 0, 1
  from         a = 1 and true
  to           false
  open case    a = 1
  missing      false
{text}: 0 of 7 obligations, 1 of 1 claims are open; no image is written\n"
    );
    assert_eq!(err, want);
    assert_eq!(run(&["build", &text, "-o", &image, "--partial"]).0, 0);
    let no_line = "it names no line (code 26)";
    let (status, out, _) = run(&["check", &image]);
    let said = format!("REFUSED: claim, never thread 2 point 0 and thread 1 point 1: {no_line}");
    let records = decode(&std::fs::read(&image).expect("written")).expect("an image").records;
    let fields = format!("26 {records} 0 2 0 1 1 0 7");
    assert_eq!((status, out), (1, claimed(&image, &said, &fields)));
    let (status, out, _) = run(&["explore", &text]);
    let want = "FALSE: a run of 1 step breaks a claim
  1. left: x := 1 | a := 1   writes 1 behind write 1, gives 1
     then a = 1
     x was written 0, 1
claimed never to happen: right at point 0 and left at after
";
    assert_eq!((status, out.as_str()), (1, want));
    assert_eq!(run(&["explore", &text, "--claims"]).1, want);
    let (status, out, _) = run(&["explore", &text, "--json"]);
    let told = "\"answer\":\"false\",\"states\":2,\"cut\":[],\"told\":[\"FALSE: a run of 1 step ";
    assert!(status == 1 && out.contains(told), "{out}");
}

/// A claim whose line says something else: the verdict tells it by the line's number.
#[test]
fn a_claim_with_another_line_is_refused() {
    let text = CLAIM.as_bytes();
    let shown = fed(&["show", "-"], &fed(&["build", "-", "-o", "-"], text).stdout).stdout;
    let shown = String::from_utf8(shown).expect("text");
    let (front, line) = shown.trim_end().rsplit_once("  claims ").expect("claims come last");
    assert_ne!(line, "1");
    let (status, out, _) = told(fed(&["check", "-"], format!("{front}  claims 1\n").as_bytes()));
    let words = "its line 1 is not justified or concludes something else (code 26)";
    assert!(status == 1 && out.contains(words), "{out}");
}

#[test]
fn the_run_that_breaks_peterson_without_its_order_is_shown() {
    let (status, out, _) = run(&["explore", &example("peterson-claim-wrong-1"), "--claims"]);
    let lines: Vec<&str> = out.lines().collect();
    assert_eq!((status, lines[0]), (1, "FALSE: a run of 10 steps breaks a claim"));
    let both = "claimed never to happen: ann at inside and bob at inside";
    assert_eq!(lines.last(), Some(&both));
}

#[test]
fn wrong_use_and_full_disks_are_never_0() {
    for args in [&[][..], &["buidl"], &["check"], &["build", "x"], &["check", "--fast", "x"]] {
        let (status, out, err) = run(args);
        assert!(status == 2 && out.is_empty() && err.contains("outline"), "{args:?}: {err}");
    }
    let (status, out, _) = run(&["--help"]);
    assert!(status == 0 && out.starts_with("outline build FILE.outline -o FILE.image"), "{out}");
    let (status, out, _) = run(&["--version"]);
    assert_eq!((status, out.as_str()), (0, "outline 1.0.0\n"));
    if Path::new("/dev/full").exists() {
        let (status, ..) = run(&["build", &example("polling"), "-o", "/dev/full"]);
        assert_eq!(status, 2);
        let full = std::fs::OpenOptions::new().write(true).open("/dev/full").expect("opens");
        let mut check = Command::new(env!("CARGO_BIN_EXE_outline"));
        let status = check.args(["check", &example("polling")]).stdout(full).status();
        assert_eq!(status.expect("run").code(), Some(2));
    }
}

#[test]
fn each_command_speaks_json() {
    let folder = Folder::new("json");
    let (text, image) = (example("polling"), folder.file("p.image"));
    let fields = "\"fields\":[0,0,0,0,0,0,0,0,22],\"words\":\"ACCEPTED: 22 obligations met\"";
    let cases: [(&[&str], &str); 5] = [
        (&["build", &text, "-o", &image], "\"accepted\":true,\"fields\":[0,0,0,0,0,0,0,0,22],"),
        (&["check", &image], fields),
        (&["show", &image], fields),
        (&["explain", &text], fields),
        (&["explore", &text], "\"cut\":[],\"told\":[\"holds in all "),
    ];
    for (args, words) in cases {
        let (status, out, err) = run(&[args, &["--json"][..]].concat());
        assert_eq!((status, out.lines().count(), err.as_str()), (0, 1, ""), "{args:?}");
        assert!(out.starts_with('{') && out.ends_with("}\n") && out.contains(words), "{out}");
    }
}
