//! Interrupts in the middle: what was found until then is told, and no file is written in part.
#![cfg(target_os = "linux")]

mod program;

use outline::text::parse_source::parse;
use program::{example, told, Folder};
use std::os::unix::process::ExitStatusExt;
use std::path::{Path, PathBuf};
use std::process::{Child, Command, Output, Stdio};
use std::time::Duration;

/// Runs the tool; interrupts are not ignored, as a shell has it for what it starts in the background.
fn started(args: &[&str]) -> Child {
    let mut command = Command::new("env");
    command.args(["--default-signal=INT", env!("CARGO_BIN_EXE_outline")]).args(args);
    command.stdin(Stdio::null()).stdout(Stdio::piped()).stderr(Stdio::piped());
    command.spawn().expect("run")
}

/// Whether a process has a handler of its own for interrupts.
fn catches_interrupts(process: u32) -> bool {
    let status = std::fs::read_to_string(format!("/proc/{process}/status")).unwrap_or_default();
    let caught = status.lines().find_map(|line| line.strip_prefix("SigCgt:"));
    let caught = caught.and_then(|mask| u64::from_str_radix(mask.trim(), 16).ok());
    caught.is_some_and(|mask| mask & 2 != 0)
}

fn interrupted(child: Child) -> Output {
    let process = child.id().to_string();
    assert!(Command::new("kill").args(["-INT", &process]).status().expect("kill").success());
    child.wait_with_output().expect("run")
}

fn question(name: &str) -> String {
    let folder = PathBuf::from(env!("CARGO_MANIFEST_DIR")).join("../../examples/infer");
    folder.join(format!("{name}.program")).to_string_lossy().into_owned()
}

#[test]
fn infer_writes_the_best_outline_or_says_why_not() {
    let folder = Folder::new("interrupted-infer");
    for wait in [0, 1500] {
        let to = folder.file(&format!("{wait}.outline"));
        let child = started(&["infer", &question("peterson-entry"), "-o", &to]);
        while !catches_interrupts(child.id()) {
            std::thread::yield_now();
        }
        std::thread::sleep(Duration::from_millis(wait));
        let (status, out, err) = told(interrupted(child));
        assert_eq!((status, err.as_str()), (3, ""), "{out}");
        assert!(out.starts_with("NOT FOUND: interrupted; "), "{out}");
        match Path::new(&to).exists() {
            true => {
                assert!(
                    out.contains("the best outline until then, which is not accepted"),
                    "{out}"
                );
                let text = std::fs::read_to_string(&to).expect("an outline");
                assert!(!parse(&text).expect("an outline").has_holes());
            }
            false => assert!(out.contains("no outline was put together until then"), "{out}"),
        }
    }
}

#[test]
fn check_says_which_files_it_has_not_looked_at() {
    let lock = example("peterson-claim");
    let child = started(&[&["check"][..], &[lock.as_str(); 200]].concat());
    while !catches_interrupts(child.id()) {
        std::thread::yield_now();
    }
    let (status, out, err) = told(interrupted(child));
    assert_eq!((status, err.as_str()), (2, ""), "{out}");
    let left = out.matches(": NOT JUDGED: interrupted before it was looked at").count();
    let judged = out.matches(": ACCEPTED: ").count();
    assert!(left > 0 && left + judged == 200, "{left} left, {judged} judged");
    assert!(out.contains(&format!("200 files: {judged} accepted, 0 refused, {left} not judged")));
}

#[test]
fn explore_ends_and_says_nothing() {
    let lines: String = (0..5).map(|n| format!("    x := {n}\n    y := {n}\n")).collect();
    let threads: String =
        ["a", "b", "c", "d"].iter().map(|t| format!("thread {t}\n{lines}")).collect();
    let folder = Folder::new("interrupted-explore");
    let file = folder.with("long.outline", &format!("word x = 0\nword y = 0\n{threads}"));
    let args = ["explore", &file, "--outcome", "false", "--steps", "80", "--writes", "40"];
    let child = started(&args);
    std::thread::sleep(Duration::from_millis(300));
    let output = interrupted(child);
    assert_eq!(output.status.signal(), Some(2), "{output:?}");
    assert!(output.stdout.is_empty() && output.stderr.is_empty(), "{output:?}");
}
