//! `serve`: what it prints, and its status.

mod program;

use program::{example, run, told, Folder};
use std::path::Path;
use std::process::Command;

/// The calls of the example, and who served them.
fn served(args: &[&str]) -> (i32, String, String, String) {
    let calls = example("two-callers").replace(".outline", ".calls");
    let (status, out, err) = run(&[&["serve", &calls], args].concat());
    let by = ["independent service", "proved service"].into_iter().find(|by| out.contains(by));
    let by = by.unwrap_or_else(|| panic!("{out}{err}"));
    assert!(cfg!(feature = "proved") || by == "independent service");
    (status, out, err, by.into())
}

#[test]
fn two_makers() {
    let (status, out, err, by) = served(&[]);
    // Polling is counted in tests/bills.rs. Coherence: two actions and three points in each thread, so that each costs
    // 10 + 2 of 25 + 6 of 40. Polling as it is built has nothing to trim.
    let want = format!(
        "\
1 check polling.outline: ACCEPTED: 22 obligations met
2 check message-passing-wrong-1.outline: REFUSED: class 4, thread 2 (reader) point 0 (line 23) under thread 1 \
(writer) point 1 (line 17): it names no line (code 20)
1 bill polling.outline: 735 cents; writer: 380, reader: 355; billed images: 1
2 bill polling.outline: NOT SERVED (code 36): caller 2 has no right to bill
2 trim polling.outline: 3638 bytes of 3638
1 bill message-passing-wrong-1.outline: NOT SERVED (code 30): the image is not accepted
1 bill coherence.outline: 600 cents; writer: 300, reader: 300; billed images: 2
3 check polling.outline: NOT SERVED (code 36): caller 3 has no right to check
9 check polling.outline: NOT SERVED (code 35): there is no caller 9, only 1 to 8
billed images: caller 1: 2, caller 2: 0   ({by})
"
    );
    assert_eq!((status, out, err.as_str()), (1, want, ""));
}

#[test]
fn as_json() {
    let (status, out, _, by) = served(&["--json"]);
    assert_eq!((status, out.lines().count()), (1, 9));
    let third = format!(
        "{{\"version\":1,\"command\":\"serve\",\"status\":1,\
         \"caller\":2,\"call\":\"bill\",\"file\":\"polling.outline\",\"code\":36,\
         \"words\":\"NOT SERVED (code 36): caller 2 has no right to bill\",\"server\":\"{by}\"}}"
    );
    assert_eq!(out.lines().nth(3), Some(third.as_str()));
}

/// A folder with the image of polling in it, and the calls given.
fn with_calls(test: &str, calls: &str) -> (Folder, String) {
    let folder = Folder::new(test);
    let built = run(&["build", &example("polling"), "-o", &folder.file("p.image"), "--all-lines"]);
    assert_eq!(built.0, 0);
    let calls = folder.with("all.calls", calls);
    (folder, calls)
}

#[test]
fn each_right_alone() {
    let each = "1 check p.image\n1 trim p.image\n1 bill p.image 0 0 0 0 7\n";
    for (right, codes) in [("check", [0, 0, 36]), ("bill", [36, 36, 0]), ("replay", [36; 3])] {
        let (_folder, calls) = with_calls(right, &format!("caller 1 may {right}\n{each}"));
        let (status, out, _) = run(&["serve", &calls, "--json"]);
        assert_eq!(status, 1);
        for (line, code) in out.lines().zip(codes) {
            assert!(line.contains(&format!("\"code\":{code},")), "{right}: {line}");
        }
    }
}

#[test]
fn numbers_go_by_the_caller_and_end() {
    let text = "caller 1 may bill\ncaller 2 may bill\ncaller 2 billed 4294967294\ncaller 3 billed 5\n\
                1 bill p.image 1 0 0 0 0\n2 bill p.image 1 0 0 0 0\n2 bill p.image 1 0 0 0 0\n1 bill p.image 1 0 0 0 9\n";
    let (_folder, calls) = with_calls("numbers", text);
    let (status, out, _) = run(&["serve", &calls]);
    let end = out.lines().last().expect("a last line").split("   (").next();
    let want = "\
1 bill p.image: 2 cents; t1: 1, t2: 1; billed images: 1
2 bill p.image: 2 cents; t1: 1, t2: 1; billed images: 4294967295
2 bill p.image: NOT SERVED (code 31): caller 2 has 4294967295 billed images, and no more are counted
1 bill p.image: 9 cents, the least charge; the obligations come to 2; t1: 1, t2: 1; billed images: 2
";
    assert!(status == 1 && out.starts_with(want), "{out}");
    assert_eq!(end, Some("billed images: caller 1: 2, caller 2: 4294967295, caller 3: 5"));
}

#[test]
fn a_trimmed_image_is_written_beside_the_calls() {
    let text = "caller 8 may check\n7 trim p.image none.image\n8 trim p.image small.image\n";
    let (folder, calls) = with_calls("trimmed", text);
    // From another folder: files are named as seen from the text.
    let tool = Command::new(env!("CARGO_BIN_EXE_outline"))
        .args(["serve", &calls])
        .current_dir("/")
        .output();
    let (status, out, _) = told(tool.expect("run"));
    assert!(status == 1 && out.contains("8 trim p.image: 3638 bytes of "), "{out}");
    let target = folder.file("one.image");
    assert_eq!(run(&["trim", &folder.file("p.image"), "-o", &target]).0, 0);
    let read = |file: &str| std::fs::read(file).expect("an image");
    assert_eq!(read(&folder.file("small.image")), read(&target));
    assert!(!Path::new(&folder.file("none.image")).exists());
}

#[test]
fn traces_and_handovers() {
    let text = "caller 1 may check, replay\ncaller 2 may check\n\
                1 replay p.image seen.trace\n1 replay p.image bad.trace\n2 replay p.image seen.trace\n\
                2 handover old.image new.image points\n2 handover old.image new.image seen.trace\n\
                1 across old.image new.image points none.trace none.trace\n2 across old.image new.image points none.trace none.trace\n";
    let (folder, calls) = with_calls("traces", text);
    // The reader polls, the writer stores both, the reader sees the flag and leaves the loop.
    folder.with("seen.trace", "t2 0\nt2 0\nt1 0\nt1 0\nt2 1\nt2 0\n");
    folder.with("bad.trace", "t2 0\nt2 5\n");
    folder.with("none.trace", "");
    let update = |name: &str| example(&format!("update/{name}"));
    let file = |name: &str| folder.file(name);
    assert_eq!(run(&["build", &update("old"), "-o", &file("old.image")]).0, 0);
    let found = run(&[
        "handover",
        &file("old.image"),
        &update("new"),
        "-o",
        &file("new.image"),
        "--table",
        &file("points"),
    ]);
    assert_eq!(found.0, 0, "{}", found.1);
    let (status, out, _) = run(&["serve", &calls]);
    let want = "\
1 replay p.image: 6 steps (code 0); t1 at point 2, t2 at point 2, r1 = 1, r2 = 0
1 replay p.image: 1 step, the next one is refused (code 28); t1 at point 0, t2 at point 1, r1 = 0, r2 = 0
2 replay p.image: NOT SERVED (code 36): caller 2 has no right to replay
2 handover old.image: PERMITTED
2 handover old.image: NOT SERVED (code 33): the table is too short, too long or out of range
1 across old.image: 0 steps (code 0); ";
    assert!(status == 1 && out.starts_with(want), "{out}");
    let last = "2 across old.image: NOT SERVED (code 36): caller 2 has no right to replay";
    assert_eq!(out.lines().nth(6), Some(last));
}

/// Where a source has labels, points are told by them.
#[test]
fn points_are_told_by_their_labels() {
    let folder = Folder::new("labels");
    let text = std::fs::read_to_string(example("update/old")).expect("an outline");
    folder.with("old.outline", &text);
    folder.with("one.trace", "reader 0\n");
    let calls = folder.with("all.calls", "caller 1 may replay\n1 replay old.outline one.trace\n");
    let (status, out, err) = run(&["serve", &calls]);
    assert_eq!(status, 0, "{out}{err}");
    let want = "1 replay old.outline: 1 step (code 0); writer at point 0, reader at looked, a = 0, b = 0\n";
    assert!(out.starts_with(want), "{out}");
}

/// Words of a run that are not what the machine does, under the old code or behind a handover, are a mistake of the line.
#[test]
fn traces_in_words_are_compared() {
    let text = "caller 1 may replay\n1 replay p.image said\n1 across old.image new.image points said.old said.new\n";
    let (folder, calls) = with_calls("words", text);
    let file = |name: &str| folder.file(name);
    let update = |name: &str| example(&format!("update/{name}"));
    assert_eq!(run(&["build", &update("old"), "-o", &file("old.image")]).0, 0);
    let new = update("new");
    let [old, image, table] = [file("old.image"), file("new.image"), file("points")];
    assert_eq!(run(&["handover", &old, &new, "-o", &image, "--table", &table]).0, 0);
    folder.with("said", "  1. t2: r1 <-acq w2   reads 0 from write 1\n");
    folder.with("said.old", "  1. t1: w1 := 1   writes 1 behind write 1\n");
    let second = "  1. t1: w2 :=rel 1   writes 1 behind write 1\n";
    folder.with("said.new", second);
    let (status, out, err) = run(&["serve", &calls]);
    assert!(status == 0 && out.contains("1 across old.image: 2 steps (code 0); "), "{out}{err}");
    folder.with("said.new", &second.replace("writes 1", "writes 2"));
    folder.with("said", "  1. t2: r1 <- w2   reads 0 from write 1\n");
    let (status, out, err) = run(&["serve", &calls]);
    assert_eq!((status, out.as_str()), (2, ""));
    let [said, after] = [file("said"), file("said.new")];
    let told = [
        format!("{calls}:2:10: {said}:1: t2 is at `r1 <-acq w2` here, the line says: r1 <- w2 reads 0 from write 1"),
        format!("{calls}:3:10: {after}:1: `w2 :=rel 1` writes 1 behind write 1 here, the line says: writes 2 behind write 1"),
    ];
    assert!(told.iter().all(|line| err.lines().any(|other| other == line)), "{err}");
}

#[test]
fn a_bad_line_is_named_by_its_number() {
    let (_folder, calls) = with_calls(
        "bad",
        "caller 1 may check\n1 check p.image\n1 pay p.image\ncaller 2 may bill\n",
    );
    let (status, out, err) = run(&["serve", &calls]);
    let want = format!(
        "{calls}:3:3: `pay` is no call: `check`, `trim`, `bill`, `handover`, `replay` or `across`\n  | 1 pay p.image\n  |   ^\n\
         {calls}:4:1: `caller` comes too late: rights are fixed before the first call\n  | caller 2 may bill\n  | ^\n"
    );
    assert_eq!((status, out.as_str(), err), (2, "", want));
    let (folder, calls) =
        with_calls("missing", "caller 1 may check\n1 check p.image\n1 check q.image\n");
    let (status, out, err) = run(&["serve", &calls]);
    assert_eq!((status, out.as_str()), (2, ""));
    let missing = folder.file("q.image");
    assert!(err.starts_with(&format!("{calls}:3:9: {missing}: ")), "{err}");
}

#[test]
fn wrong_use() {
    let (folder, calls) = with_calls("serve-use", "");
    assert_eq!(run(&["serve"]).0, 2);
    assert_eq!(run(&["serve", &calls, "--tariff", "x"]).0, 2);
    let image = folder.file("p.image");
    let (status, out, err) = run(&["serve", &image]);
    assert_eq!((status, out.as_str(), err), (2, "", format!("{image}: these are no calls\n")));
    let (status, out, _) = run(&["serve", &calls]);
    assert!(status == 0 && out.starts_with("billed images:    ("), "{out}");
}
