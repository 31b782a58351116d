//! `watch`: judged again at each save, the first thing to look at on top.

mod program;

use outline::diagnosis::BOUNDS;
use outline::search::budget::TRIES;
use outline::watch::judgement::{Effort, Judgement, Past};
use program::{example, run, Folder};
use std::io::{BufRead, BufReader};
use std::process::{Command, Stdio};
use std::sync::mpsc::channel;
use std::time::Duration;

const EFFORT: Effort = Effort { tries: TRIES, bounds: BOUNDS };

/// What `watch --once` says has the verdict of `check`, and first what `build` says first.
#[test]
fn once_says_what_build_and_check_say() {
    let folder = Folder::new("watch-once");
    for (name, status) in [("message-passing", 0), ("message-passing-wrong-2", 1)] {
        let file = example(name);
        let (ended, out, err) = run(&["watch", "--once", &file]);
        assert_eq!((ended, err.as_str()), (status, ""));
        let verdict = run(&["check", &file]).1;
        let words = verdict.lines().next().and_then(|line| line.split_once(": ")).expect("words").1;
        assert!(out.contains(words), "{out}");
        let built = run(&["build", &file, "-o", &folder.file("i.image")]).2;
        let first = built.lines().next().unwrap_or_default();
        assert!(out.lines().nth(1).expect("a line").starts_with(first), "{out}");
    }
    let bad = folder.with("bad.outline", "word x = 0\nthread a { b }\n");
    let (status, out, _) = run(&["watch", "--once", &bad]);
    assert!(status == 2 && out.contains(&format!("{bad}:2:12: ")), "{out}");
    let none = folder.file("none.outline");
    assert_eq!(run(&["watch", "--once", &none]).0, 2);
    assert_eq!(run(&["watch"]).0, 2);
    assert_eq!(run(&["watch", "--once", "-"]).0, 2);
    // What is refused stands above what is accepted.
    let (good, wrong) = (example("polling"), example("message-passing-wrong-1"));
    let (status, out, _) = run(&["watch", "--once", &good, &wrong]);
    let at = |file: &str| out.find(file).unwrap_or_else(|| panic!("{file}: {out}"));
    assert!(status == 1 && at(&wrong) < at(&good), "{out}");
}

/// Broken by a save, mended by another, ended by an interrupt.
#[test]
#[cfg(unix)]
fn each_save_is_judged() {
    let folder = Folder::new("watch-save");
    let text = std::fs::read_to_string(example("message-passing")).expect("the example");
    let file = folder.with("m.outline", &text);
    let mut child = Command::new(env!("CARGO_BIN_EXE_outline"))
        .args(["watch", &file])
        .stdout(Stdio::piped())
        .spawn()
        .expect("run");
    let (send, lines) = channel();
    let out = BufReader::new(child.stdout.take().expect("a pipe"));
    let reader = std::thread::spawn(move || {
        for line in out.lines().map_while(Result::ok) {
            let _ = send.send(line);
        }
    });
    let wait_for = |wanted: &str| loop {
        let line = lines.recv_timeout(Duration::from_secs(60)).expect(wanted);
        if line.contains(wanted) {
            break;
        }
    };
    wait_for("ACCEPTED: ");
    folder.with("m.outline", &text.replace("flag :=rel 1", "flag := 1"));
    wait_for("PROGRAM WRONG: ");
    folder.with("m.outline", &text.replace("flag :=rel 1", "flag :=rel"));
    wait_for("is wanted");
    folder.with("m.outline", &text);
    wait_for("ACCEPTED: ");
    let interrupt = format!("kill -INT {}", child.id());
    assert!(Command::new("sh").args(["-c", &interrupt]).status().expect("sent").success());
    assert_eq!(child.wait().expect("it ends").code(), Some(0));
    reader.join().expect("all was read");
}

/// What is remembered changes no answer: after an edit and back the image is the same as at first, and an outline that is
/// judged from memory gets the verdict that it gets without.
#[test]
fn memory_changes_no_answer() {
    let verdict =
        |text: &str, past: &mut Past| match Judgement::of(text, past, EFFORT, &|_, _| true) {
            Judgement::Judged(judged) => (judged.verdict.fields(), judged.built.open.len()),
            _ => panic!("a text without mistakes"),
        };
    for name in ["message-passing", "peterson-claim", "rcu-containers", "three-threads"] {
        let mut past = Past::default();
        let good = std::fs::read_to_string(example(name)).expect("the example");
        let first = verdict(&good, &mut past);
        let mut texts = vec![good.clone()];
        for n in 1..=2 {
            texts
                .push(std::fs::read_to_string(example(&format!("{name}-wrong-{n}"))).expect("one"));
        }
        texts.push(good.replacen("{ true }", "{ holds (true) }", 1));
        texts.push(good.clone());
        for text in texts {
            assert_eq!(verdict(&text, &mut past), verdict(&text, &mut Past::default()), "{name}");
        }
        assert_eq!((first.0[0], first.1), (0, 0), "{name}");
    }
}

/// The time of one core that this thread has taken, in milliseconds: Linux tells it in nanoseconds.
fn core_time() -> f64 {
    let told = std::fs::read_to_string("/proc/thread-self/schedstat").expect("Linux");
    told.split(' ').next().and_then(|time| time.parse::<f64>().ok()).expect("a time") / 1e6
}

/// The outlines of the gallery, each saved once with a change at each of its points: `{ P }` becomes `{ P and true }`.
/// `cargo test --release --offline -p outline --test watch -- --ignored --nocapture` prints the times of one core.
#[test]
#[ignore = "a measurement: it needs a machine with nothing else to do"]
fn a_save_takes_less_than_200_ms() {
    let folder = std::path::Path::new(env!("CARGO_MANIFEST_DIR")).join("../../examples");
    let mut times: Vec<(f64, String)> = Vec::new();
    for entry in std::fs::read_dir(folder).expect("the examples") {
        let path = entry.expect("a file").path();
        if path.extension().is_none_or(|end| end != "outline") {
            continue;
        }
        let text = std::fs::read_to_string(&path).expect("a text");
        let mut past = Past::default();
        Judgement::of(&text, &mut past, EFFORT, &|_, _| true);
        let source = outline::text::parse_source::parse(&text).expect("no mistakes");
        for (number, point) in source.points.iter().flatten().enumerate() {
            let mut lines: Vec<String> = text.lines().map(String::from).collect();
            let place = (point.line.line - 1..lines.len()).find(|&at| lines[at].contains('}'));
            let line = &mut lines[place.expect("a point ends")];
            *line = line.replacen(" }", " and true }", 1);
            let begun = core_time();
            Judgement::of(&(lines.join("\n") + "\n"), &mut past, EFFORT, &|_, _| true);
            times.push((core_time() - begun, format!("{} point {number}", path.display())));
        }
    }
    times.sort_by(|a, b| b.0.total_cmp(&a.0));
    let over = times.iter().filter(|(time, _)| *time >= 200.0).count();
    println!(
        "{} saves, {over} of them 200 ms or more; median {:.0} ms",
        times.len(),
        times[times.len() / 2].0
    );
    times.iter().take(12).for_each(|(time, name)| println!("{time:.0} ms {name}"));
    assert_eq!(over, 0);
}
