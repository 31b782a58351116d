//! `litmus`: tests in herd7's C form, answered in its words; what has no counterpart is refused at its place.

mod program;

use program::{judge, run, Folder};
use std::path::PathBuf;

fn folder() -> PathBuf {
    PathBuf::from(env!("CARGO_MANIFEST_DIR")).join("../../examples/litmus")
}

fn example(name: &str) -> String {
    folder().join(format!("{name}.litmus")).to_string_lossy().into_owned()
}

/// The rows of the examples' page: name, observation, and whether it is proved.
fn rows() -> Vec<[String; 3]> {
    let page = std::fs::read_to_string(folder().join("README.md")).expect("the page is there");
    let table = page.split_once("|---|---|---|---|\n").expect("a table").1;
    let rows = table.lines().take_while(|line| line.starts_with('|'));
    let cells = rows.map(|row| {
        let cells: Vec<String> =
            row.trim_matches('|').split('|').map(|cell| cell.trim().into()).collect();
        [cells[0].trim_matches('`').into(), cells[1].clone(), cells[2].clone()]
    });
    cells.collect()
}

#[test]
fn the_answers_of_all_examples_are_those_of_their_page() {
    let rows = rows();
    let names: Vec<String> = rows.iter().map(|[name, ..]| name.clone()).collect();
    let files = std::fs::read_dir(folder()).expect("the folder").filter_map(|entry| {
        let name = entry.expect("an entry").file_name().to_string_lossy().into_owned();
        name.strip_suffix(".litmus").map(String::from)
    });
    let mut files: Vec<String> = files.collect();
    files.sort();
    let mut sorted = names.clone();
    sorted.sort();
    assert_eq!(files, sorted);
    assert!(names.len() >= 50);
    for [name, observation, _] in &rows {
        let (_, out, err) = run(&["litmus", &example(name)]);
        assert_eq!(err, "", "{name}");
        let line = format!("Observation {name} {observation} ");
        assert!(out.lines().any(|told| told.starts_with(&line)), "{name}: {out}");
        assert!(out.lines().any(|told| told.starts_with("Seen all ")), "{name}: {out}");
    }
}

/// What is proved by further rules is so by them and not by the published ones, and the answer names them first.
#[test]
fn what_the_page_calls_proved_by_further_rules_is_so() {
    let rows = rows();
    let further: Vec<(&String, &String)> = rows
        .iter()
        .filter(|row| row[2].starts_with("further rule"))
        .map(|row| (&row[0], &row[2]))
        .collect();
    assert_eq!(further.len(), 2);
    for (name, rules) in further {
        let words = ["litmus", "--prove", "--further", "--tries", "100000", &example(name)];
        let (status, out, _) = run(&words);
        let first = format!("NO VERDICT BY THE PUBLISHED RULES: {name} is proved with {rules}\n");
        assert!(status == 4 && out.starts_with(&first), "{out}");
    }
    let seen = rows.iter().filter(|row| row[2] == "all states").count();
    assert_eq!(seen, 6);
}

#[test]
fn what_the_page_calls_proved_is_proved() {
    let rows = rows();
    let proved: Vec<&String> =
        rows.iter().filter(|row| row[2] == "yes").map(|row| &row[0]).collect();
    assert!(proved.len() >= 20, "{proved:?}");
    let files: Vec<String> = proved.iter().map(|name| example(name)).collect();
    let words: Vec<&str> = files.iter().map(String::as_str).collect();
    let (status, out, _) = run(&[&["litmus", "--prove"], &words[..]].concat());
    let end = format!("   ({})", judge());
    let accepted = |line: &&str| line.starts_with("Proved ACCEPTED: ") && line.ends_with(&end);
    assert_eq!((status, out.lines().filter(accepted).count()), (0, proved.len()), "{out}");
    for [name, observation, is_proved] in &rows {
        let never = ["Never", "Always"].contains(&observation.as_str());
        assert!(never != is_proved.is_empty(), "{name}: only what never happens is proved or not");
    }
}

#[test]
fn the_answer_has_herd7s_form() {
    let (status, out, _) = run(&["litmus", &example("MP")]);
    let want = "Test MP Allowed\nStates 4\n1:r0=0; 1:r1=0;\n1:r0=0; 1:r1=1;\n1:r0=1; 1:r1=0;\n1:r0=1; 1:r1=1;\nOk\n\
                Witnesses\nPositive: 1 Negative: 3\nCondition exists (1:r0=1 /\\ 1:r1=0)\nObservation MP Sometimes 1 3\n\
                Seen all ";
    assert!(status == 1 && out.starts_with(want), "{out}");
    let (status, out, _) = run(&["litmus", &example("2+2W"), "--runs"]);
    assert!(status == 1 && out.contains("\n[x]=1; [y]=1;\n  1. P0: "), "{out}");
    let (_, out, _) = run(&["litmus", &example("LB")]);
    assert!(out.contains("Test LB Forbidden\n") && out.contains("\nOk\n"), "{out}");
    let (_, out, _) = run(&["litmus", &example("MP"), "--states", "5"]);
    assert!(
        out.contains("Observation MP Undecided 0 0\nSeen 5 states, not all there are"),
        "{out}"
    );
}

#[test]
fn a_proof_is_an_outline_that_is_accepted() {
    let folder = Folder::new("litmus-proof");
    let outline = folder.file("mp.outline");
    let (status, out, err) = run(&["litmus", &example("MP+ra"), "--prove", "-o", &outline]);
    assert_eq!((status, err.as_str()), (0, ""), "{out}");
    let text = std::fs::read_to_string(&outline).expect("written");
    assert!(text.starts_with("# MP+ra: exists (1:r0=1 /\\ 1:r1=0)\nrange 2\n"), "{text}");
    let (status, out, _) = run(&["check", &outline]);
    assert!(status == 0 && out.contains("ACCEPTED"), "{out}");
    // A test by itself has a claim of two threads' ends.
    let (status, out, _) = run(&["litmus", &example("WRC+ra"), "--prove", "-o", &outline]);
    assert!(status == 0 && out.contains("Proved ACCEPTED"), "{out}");
    let svg = folder.file("run.svg");
    let (status, _, _) = run(&["litmus", &example("SB"), "--svg", &svg]);
    let drawn = std::fs::read_to_string(&svg).expect("drawn");
    assert!(status == 1 && drawn.contains("At the end: 0:r0=0; 1:r0=0;"), "{drawn}");
}

/// A body of P0, and where and why it is refused.
const REFUSED: [(&str, &str, &str); 24] = [
    ("int r; if (r) atomic_store_explicit(x, 1, memory_order_relaxed);", "r)", "`r` may be read here before it has a value"),
    ("atomic_store_explicit(x, 1, memory_order_seq_cst);", "memory_order_seq_cst", "seq_cst accesses have no counterpart"),
    ("atomic_store(x, 1);", "atomic_store", "is seq_cst"),
    ("int r = atomic_fetch_add(x, 1);", "atomic_fetch_add", "is seq_cst"),
    ("*x = 1;", "*x", "a plain access to `x`"),
    ("int r = *x;", "*x", "a plain access to `x`"),
    ("atomic_thread_fence(memory_order_acquire);", "atomic_thread_fence", "fences have no counterpart"),
    ("smp_mb();", "smp_mb", "fences have no counterpart"),
    ("int e = 0; atomic_compare_exchange_strong_explicit(x, &e, 1, memory_order_relaxed, memory_order_relaxed);",
     "atomic_compare", "compare-exchange has no counterpart"),
    ("spin_lock(x);", "spin_lock", "locks have no counterpart"),
    ("int r = rcu_dereference(*x);", "rcu_", "RCU has no counterpart"),
    ("int r = atomic_load_explicit(x, memory_order_consume);", "memory_order_consume", "dependencies"),
    ("int r = atomic_load_explicit(x, memory_order_release);", "memory_order_release", "no order of this access in C"),
    ("int r = atomic_load_explicit(x, memory_order_relaxed) ^ 1;", "^", "no operation of the machine"),
    ("int r = atomic_load_explicit(x, memory_order_relaxed) + atomic_load_explicit(y, memory_order_relaxed);", "+",
     "which of these two accesses comes first"),
    ("atomic_store_explicit(x, 16, memory_order_relaxed);", "16", "values are 0 to 15"),
    ("atomic_store_explicit(z, 1, memory_order_relaxed);", "z", "no shared word"),
    ("atomic_store_explicit(x, 1, memory_order_relaxed); int r = atomic_exchange_explicit(x, 2, memory_order_acquire);",
     "atomic_exchange", "only acquires"),
    ("int r = atomic_exchange_explicit(x, 2, memory_order_release); int s = atomic_load_explicit(x, memory_order_relaxed);",
     "atomic_exchange", "only releases"),
    ("int r = READ_ONCE(*x); WRITE_ONCE(*y, 1);", "WRITE_ONCE", "by a dependency or not at all"),
    ("int r = xchg(x, 1); WRITE_ONCE(*y, 1);", "xchg", "a full barrier"),
    ("int r = x[0];", "[0]", "arrays"),
    ("goto nowhere;", "goto", "no label `nowhere`"),
    ("printf(\"x\");", "printf", "no access that is known here"),
];

#[test]
fn what_has_no_counterpart_is_refused_at_its_place() {
    let folder = Folder::new("litmus-refused");
    for (body, place, why) in REFUSED {
        let line = format!("  {body}");
        let text = format!(
            "C refused\n{{}}\nP0 (atomic_int* x, atomic_int* y) {{\n{line}\n}}\nexists (true)\n"
        );
        let file = folder.with("refused.litmus", &text);
        let (status, out, err) = run(&["litmus", &file]);
        let column = line.find(place).expect("the place") + 1;
        assert_eq!((status, err.as_str()), (2, ""), "{body}: {out}");
        assert!(out.starts_with(&format!("{file}:4:{column}: ")), "{body}: {out}");
        assert!(out.contains(why), "{body}: {out}");
    }
}

/// Tests with a mistake in them, and the line of the mistake.
#[test]
fn damaged_tests_are_told_by_their_places() {
    let folder = Folder::new("litmus-damaged");
    let good = "C good\n\"a title\"\nGenerator=diyone7 (version 7.56)\n(* a\n { b *)\n{ x=0; int y=1; 0:r0=0; }\n\
                P0 (atomic_int* x) {\n int r0 = atomic_load_explicit(x, memory_order_relaxed);\n}\nlocations [x; 0:r0;]\nexists (0:r0=0 /\\ ~(y=0))\n";
    let (status, out, _) = run(&["litmus", &folder.with("good.litmus", good)]);
    assert!(status == 1 && out.contains("\n0:r0=0; [x]=0; [y]=1;\nOk\n"), "{out}");
    for (from, to, line) in [
        ("C good", "X86 good", 1),
        ("{ x=0; int y=1; 0:r0=0; }", "{ x=0; int y=99; }", 6),
        ("{ x=0; int y=1; 0:r0=0; }", "{ x=0; x=1; }", 6),
        ("0:r0=0; }", "0:r0=1; }", 6),
        ("P0", "P1", 7),
        ("atomic_int* x", "int x", 7),
        ("memory_order_relaxed);", "memory_order_relaxed", 9),
        ("locations [x;", "locations [z;", 10),
        ("exists", "filter (x=0) exists", 11),
        ("(0:r0=0", "(1:r0=0", 11),
        ("(0:r0=0", "(0:r7=0", 11),
        ("~(y=0))", "~(y=0)", 12),
        ("exists (", "exists ((", 12),
    ] {
        assert!(good.contains(from), "{from}");
        let file = folder.with("bad.litmus", &good.replacen(from, to, 1));
        let (status, out, _) = run(&["litmus", &file]);
        assert!(status == 2 && out.starts_with(&format!("{file}:{line}:")), "{to}: {out}");
    }
}

#[test]
fn one_refused_test_does_not_keep_others_from_being_answered() {
    let folder = Folder::new("litmus-others");
    let damaged = folder.with("damaged.litmus", "C damaged\n");
    let (status, out, _) = run(&["litmus", &damaged, &example("SB")]);
    assert!(
        status == 2
            && out.contains("start state is wanted")
            && out.contains("Observation SB Sometimes"),
        "{out}"
    );
    let (status, out, _) = run(&["litmus", "--json", &damaged, &example("SB")]);
    assert_eq!((status, out.lines().count()), (2, 2), "{out}");
    let (status, _, err) = run(&["litmus"]);
    assert_eq!((status, err.as_str()), (2, "a litmus test is wanted; see outline --help\n"));
}

/// Values that pass the range, and values of which nothing is known within the bounds.
#[test]
fn values_stay_in_the_range_or_the_test_is_refused() {
    let folder = Folder::new("litmus-values");
    let text = "C counts\n{}\nP0 (atomic_int* x) {\n  for (;;) {\n    int r = atomic_fetch_add_explicit(x, 1, memory_order_acq_rel);\n  }\n}\nexists (true)\n";
    let file = folder.with("counts.litmus", text);
    let (status, out, _) = run(&["litmus", &file, "--writes", "30"]);
    assert!(status == 2 && out.starts_with(&format!("{file}:5:13: a run of ")), "{out}");
    let (status, out, _) = run(&["litmus", &file]);
    assert!(
        status == 2
            && out.starts_with(&format!(
                "{file}:3:1: that all values stay within 0 to 15 is not known"
            )),
        "{out}"
    );
}

/// A choice with both ways, a chain of tests in C's order, loops with `break`.
#[test]
fn control_flow_is_that_of_c() {
    let folder = Folder::new("litmus-flow");
    let asked = |body: &str, condition: &str, states: &str| {
        let text = format!("C flow\n{{}}\nP0 (atomic_int* x, atomic_int* y) {{\n{body}\n}}\n\
            P1 (atomic_int* x, atomic_int* y) {{ atomic_store_explicit(y, 1, memory_order_relaxed); \
            atomic_store_explicit(x, 1, memory_order_release); }}\n{condition}\n");
        let (status, out, err) = run(&["litmus", &folder.with("flow.litmus", &text)]);
        assert_eq!((status, err.as_str()), (0, ""), "{out}");
        assert!(out.contains(states), "{out}");
    };
    asked(
        "int r0 = atomic_load_explicit(x, memory_order_acquire);\n int r1;\n\
         if (r0 == 1 && atomic_load_explicit(y, memory_order_relaxed) == 1) r1 = 3; else { r1 = 2; }",
        "forall ((0:r0=1 /\\ 0:r1=3) \\/ (0:r0=0 /\\ 0:r1=2))",
        "States 2\n0:r0=0; 0:r1=2;\n0:r0=1; 0:r1=3;\n",
    );
    asked(
        "int r0 = 0, r1 = 2; do { r1 += 1; } while (r1 < 4);\n for (int i = 0; i < 2; i++) { if (i == 1) break; r0++; }",
        "forall (0:r0=1 /\\ 0:r1=4)",
        "States 1\n0:r0=1; 0:r1=4;\n",
    );
    asked(
        "int r0 = 0; while (1) { r0 = atomic_load_explicit(x, memory_order_relaxed); if (r0 != 1) continue; break; }\n goto out; r0 = 5; out: ;",
        "forall (0:r0=1)",
        "States 1\n0:r0=1;\n",
    );
}

/// What is written for herd7 says the same when it is read again.
#[test]
fn an_exported_program_has_the_same_final_states() {
    let folder = Folder::new("litmus-export");
    for name in
        ["message-passing", "store-buffering", "polling", "load-buffering", "coherence", "peterson"]
    {
        let outline = program::example(name);
        let (status, text, err) = run(&["export", "--litmus", &outline]);
        if status == 2 {
            // Registers that are open, or jumps that are no loops, have no litmus test.
            assert!(
                err.contains("no litmus test can say") || err.contains("herd7's C has no other"),
                "{name}: {err}"
            );
            continue;
        }
        assert_eq!(status, 0, "{name}: {err}");
        let file = folder.with("again.litmus", &text);
        let (_, again, _) = run(&["litmus", &file]);
        let (status, all, _) =
            run(&["explore", &outline, "--outcomes", "--steps", "100", "--writes", "8"]);
        assert_eq!(status, 0, "{name}: {all}");
        let number = |line: &str| line.split(' ').next().and_then(|n| n.parse::<usize>().ok());
        let want = all.lines().next().and_then(number).expect("a number");
        assert!(again.contains(&format!("\nStates {want}\n")), "{name}: {again}\n{all}\n{text}");
    }
    let image = folder.file("mp.image");
    assert_eq!(run(&["build", &program::example("message-passing"), "-o", &image]).0, 0);
    let (status, text, _) =
        run(&["export", "--litmus", &image, "--outcome", "r1 = 1 /\\ ~(r2 = 1)"]);
    assert!(status == 0 && text.ends_with("exists ((1:r1=1 /\\ ~(1:r2=1)))\n"), "{text}");
    let (status, out, _) = run(&["litmus", &folder.with("mp.litmus", &text), "--prove"]);
    assert!(status == 0 && out.contains("Never 0 3"), "{out}");
    let target = folder.file("mp2.litmus");
    let (status, out, _) = run(&["export", "--litmus", &image, "-o", &target]);
    assert_eq!((status, out), (0, format!("{target}: a litmus test\n")));
}
