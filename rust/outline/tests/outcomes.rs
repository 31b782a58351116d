//! `explore --outcomes`, and conditions of last values and of registers that threads name alike.

mod program;

use program::{example, run, Folder};

/// Two threads that name their register alike; no assertion stands in the program.
const STORE_BUFFERING: &str = "word x = 0\nword y = 0\n\
    thread left\n registers a\n x := 1\n a <- y\n\
    thread right\n registers a\n y := 1\n a <- x\n";

/// Each thread writes both words.
const TWO_WRITES: &str = "range 4\nword x = 0\nword y = 0\n\
    thread left\n x := 1\n y := 2\n\
    thread right\n y := 1\n x := 2\n";

#[test]
fn all_final_states_are_told() {
    let folder = Folder::new("outcomes");
    let file = folder.with("sb.outline", STORE_BUFFERING);
    let (status, out, err) = run(&["explore", &file, "--outcomes"]);
    let lines: Vec<&str> = out.lines().collect();
    assert_eq!((status, err.as_str()), (0, ""));
    assert!(lines[0].starts_with("4 final states, in all "), "{out}");
    let ends = [(0, 0), (0, 1), (1, 0), (1, 1)]
        .map(|(a, b)| format!("left:a = {a}, right:a = {b}, x = 1, y = 1"));
    assert_eq!(lines[1..], ends);
    let (status, out, _) = run(&["explore", &file, "--outcomes", "--runs"]);
    assert_eq!(status, 0);
    let behind = out.split_once(&format!("{}\n", ends[0])).expect("the first").1;
    let want = "  1. left: x := 1   writes 1 behind write 1\n";
    assert!(behind.starts_with(want), "{out}");
    assert!(out.contains("left: left:a <- y   reads 0 from write 1\n"), "{out}");
}

#[test]
fn what_a_bound_cut_is_not_all() {
    let folder = Folder::new("outcomes-cut");
    let file = folder.with("sb.outline", STORE_BUFFERING);
    let (status, out, _) = run(&["explore", &file, "--outcomes", "--states", "3"]);
    let want = "0 final states at least, in 3 states, not all there are: cut by --states 3\n";
    assert_eq!((status, out.as_str()), (3, want));
}

#[test]
fn conditions_speak_of_last_values_and_of_threads() {
    let folder = Folder::new("conditions");
    let buffering = folder.with("sb.outline", STORE_BUFFERING);
    let writes = folder.with("2+2w.outline", TWO_WRITES);
    let asked = |file: &str, condition: &str| {
        let (status, out, err) = run(&["explore", file, "--outcome", condition]);
        assert_eq!(err, "", "{condition}");
        (status, out.split(',').next().unwrap_or_default().to_string())
    };
    for (file, condition, status, word) in [
        (&buffering, "exists (left:a = 0 /\\ right:a = 0)", 1, "happens"),
        (&buffering, "left:a = 0 and right:a = 0", 1, "happens"),
        (&buffering, "~exists (x = 0 \\/ y = 0)", 0, "never"),
        (&buffering, "forall (x = 1 /\\ y = 1)", 0, "always"),
        (&buffering, "forall (left:a = 1 \\/ ~(right:a = 0))", 1, "not always"),
        (&writes, "exists (x = 1 /\\ y = 1)", 1, "happens"),
        (&writes, "exists (x = 3)", 0, "never"),
        (&writes, "exists (x = 0)", 0, "never"),
    ] {
        assert_eq!(asked(file, condition), (status, format!("{word}: {condition}")), "{file}");
    }
    let (status, _, err) = run(&["explore", &buffering, "--outcome", "a = 0"]);
    let want = "--outcome: a value is wanted, but `a` is a register of several threads: `THREAD:NAME` says which\n";
    assert_eq!((status, err.as_str()), (2, want));
}

#[test]
fn a_run_against_forall_is_drawn() {
    let folder = Folder::new("forall-drawn");
    let file = folder.with("sb.outline", STORE_BUFFERING);
    let condition = "forall (left:a = 1 \\/ right:a = 1)";
    let (status, svg, _) = run(&["draw", &file, "--outcome", condition, "-o", "-"]);
    assert_eq!(status, 1);
    assert!(svg.contains("At the end: not forall (left:a = 1 \\/ right:a = 1)"), "{svg}");
}

/// What `build` and `infer` do with registers that are named alike is what they do with others.
#[test]
fn registers_named_alike_are_printed_and_read_again() {
    let folder = Folder::new("alike");
    let program = "word data = 0\nword flag = 0\n\
        thread writer\n registers a\n a := 1\n data := a\n flag :=rel a\n\
        thread reader\n registers a, b\n {?} a <-acq flag {?} b <- data { reader:a = 1 => b = 1 }\n";
    let (file, found) = (folder.with("mp.outline", program), folder.file("found.outline"));
    let (status, out, err) = run(&["infer", &file, "-o", &found]);
    assert_eq!((status, err.as_str()), (0, ""), "{out}");
    let (status, out, _) = run(&["check", &found]);
    assert!(status == 0 && out.contains("ACCEPTED"), "{out}");
}

#[test]
fn questions_are_asked_one_by_one() {
    let file = example("message-passing");
    for (more, want) in [
        (
            &["--outcomes", "--claims"][..],
            "`--claims` and `--outcomes` are two questions: ask one\n",
        ),
        (&["--runs"], "`--runs` goes with `--outcomes`\n"),
    ] {
        let (status, _, err) = run(&[&["explore", &file], more].concat());
        assert_eq!((status, err.as_str()), (2, want));
    }
}
