//! `replay`: what it prints, and its status.

mod program;

use program::{example, fed, run, told, Folder};

/// The reader polls once; then the writer writes, and the reader reads the flag and the data.
const PASSED: &str =
    "reader 0\nreader 0   # polls\nwriter 0\nwriter 0\nreader 1\nreader 0\nreader 1\n";

/// Who replays: the program says it, and without the feature it is the independent one.
fn replayer() -> String {
    let (_, out, _) = told(fed(&["replay", &example("polling"), "-"], b""));
    let name = out.trim_end().rsplit_once("   (").expect("who replayed").1.trim_end_matches(')');
    assert!(["independent replay", "proved replay"].contains(&name), "{out}");
    assert!(cfg!(feature = "proved") || name == "independent replay");
    name.into()
}

/// The last line without who replayed.
fn ending(out: &str) -> &str {
    let last = out.trim_end().lines().last().expect("a line");
    last.rsplit_once("   (").expect("who replayed").0
}

#[test]
fn a_trace_to_its_end() {
    let (status, out, err) = told(fed(&["replay", &example("polling"), "-"], PASSED.as_bytes()));
    let want = format!(
        "  1. reader: a <-acq flag   reads 0 from write 1
  2. reader: if a = 0 goto poll   goes to poll
  3. writer: data := 1   writes 1 behind write 1
  4. writer: flag :=rel 1   writes 1 behind write 1
  5. reader: a <-acq flag   reads 1 from write 2
  6. reader: if a = 0 goto poll   goes to point 2
  7. reader: b <- data   reads 1 from write 2
     then a = 1, b = 1
     data write 1: 0, stored view: data 1, flag 1
     data write 2: 1, stored view: data 2, flag 1
     flag write 1: 0, stored view: data 1, flag 1
     flag write 2: 1, releasing, stored view: data 2, flag 2
     writer at point 2, reader at point 3
the trace ended after 7 steps   ({})\n",
        replayer()
    );
    assert_eq!((status, out, err.as_str()), (0, want, ""));
}

#[test]
fn a_run_of_explore_is_a_trace() {
    let polling = example("polling");
    let (_, found, _) = run(&["explore", &polling, "--outcome", "b = 1"]);
    let steps = |text: &str| {
        let told = text.lines().filter(|line| line.starts_with("  ") && line.contains(". "));
        told.map(String::from).collect::<Vec<String>>()
    };
    assert_eq!(steps(&found).len(), 5);
    let (status, out, _) = told(fed(&["replay", &polling, "-"], found.as_bytes()));
    assert_eq!((status, steps(&out)), (0, steps(&found)));
    assert!(out.contains("\n     then a = 1, b = 1\n"), "{out}");
}

/// Of every example that is accepted: what `explore` prints of its end replays, and so does what `replay` prints of that.
#[test]
fn what_is_printed_as_a_run_replays() {
    let folder = std::path::Path::new(env!("CARGO_MANIFEST_DIR")).join("../../examples");
    let mut replayed = 0;
    for entry in std::fs::read_dir(folder).expect("the examples are there") {
        let path = entry.expect("readable").path();
        let file = path.to_string_lossy().into_owned();
        if !file.ends_with(".outline") || file.contains("-wrong-") {
            continue;
        }
        let (status, found, _) = run(&["explore", &file, "--outcome", "true"]);
        let (code, out, err) = told(fed(&["replay", &file, "-"], found.as_bytes()));
        if status != 1 || out.contains("NOT REPLAYED") {
            continue;
        }
        assert_eq!((code, err.as_str()), (0, ""), "{file}: {found}");
        assert_eq!(told(fed(&["replay", &file, "-"], out.as_bytes())).1, out, "{file}");
        replayed += 1;
    }
    assert!(replayed >= 20, "{replayed}");
}

#[test]
fn words_that_are_not_so_are_told_at_their_line() {
    let polling = example("polling");
    let (_, found, _) = run(&["explore", &polling, "--outcome", "b = 1"]);
    let differs = |text: &str| {
        let (status, out, err) = told(fed(&["replay", &polling, "-"], text.as_bytes()));
        assert_eq!((status, out.as_str()), (2, ""), "{err}");
        err
    };
    let want = "standard input:2: writer is at `data := 1` here, the line says: data := 2 writes 1 behind write 1\n";
    assert_eq!(differs(&found.replace("data := 1", "data := 2")), want);
    let want = "standard input:4: `a <-acq flag` reads 1 from write 2 here, the line says: reads 0 from write 2\n";
    assert_eq!(differs(&found.replace("reads 1 from write 2", "reads 0 from write 2")), want);
    let want = "standard input:1: writer is at `data := 1` here, the line says: launch missile\n";
    assert_eq!(differs("1. writer: launch missile\n"), want);
    let want = "standard input:1: `pen` is no thread: names, or numbers from 0 to 255\n";
    assert_eq!(differs("1. pen: launch missile\n"), want);
    // The run of a neighbour, whose writer writes something else behind the data.
    let (_, other, _) = run(&["explore", &example("message-passing"), "--outcome", "b = 1"]);
    let want = "standard input:5: reader is at `if a = 0 goto poll` here, the line says: b <- data reads 1 from write 2\n";
    assert_eq!(differs(&other), want);
}

/// A run begins with what its line `start:` says of open registers, unless something else is asked.
#[test]
fn a_run_with_open_registers_begins_as_it_says() {
    let boot = example("boot");
    let (_, found, _) = run(&["explore", &boot, "--outcome", "got = 5"]);
    let begin = "     start: v = 6, seen = 0, got = 3\n";
    let found = found.replace("     start: v = 0, seen = 0, got = 0\n", begin);
    let (status, out, err) = told(fed(&["replay", &boot, "-"], found.as_bytes()));
    assert!(status == 0 && out.starts_with(begin), "{out}{err}");
    let asked = fed(&["replay", &boot, "-", "--given", "got = 5"], found.as_bytes());
    let want = "standard input:2: `start: v = 0, seen = 0, got = 5` is so at the start, the line says: start: v = 6, seen = 0, got = 3\n";
    assert_eq!(told(asked), (2, String::new(), want.into()));
}

#[test]
fn bytes_as_a_pad_leaves_them() {
    let folder = Folder::new("replay-bytes");
    let image = folder.file("p.image");
    assert_eq!(run(&["build", &example("polling"), "-o", &image]).0, 0);
    let (status, out, _) = told(fed(&["replay", &image, "-"], &[1, 0, 2, 0, 2]));
    let last = "REFUSED after 2 steps (code 27): half a step: a byte is left over";
    assert_eq!((status, ending(&out)), (1, last));
    assert!(
        out.starts_with("  1. t1: w1 := 1   writes 1 behind write 1\n  2. t2: r1 <-acq w2 "),
        "{out}"
    );
}

#[test]
fn why_a_step_is_refused() {
    let refused = |name: &str, trace: &str, entries: &str| {
        let args = ["replay", &example(name), "-", "--entries", entries];
        let (status, out, _) = told(fed(&args, trace.as_bytes()));
        assert_eq!(status, 1, "{out}");
        ending(&out).to_string()
    };
    let polling = |steps: &str, entries: &str| refused("polling", steps, entries);
    for (steps, entries, why) in [
        ("3 0", "64", "0 steps (code 27): there is no thread 3"),
        ("0 0", "64", "0 steps (code 27): there is no thread 0"),
        ("1 0\n1 0\n1 0", "64", "2 steps (code 27): writer is at its last point"),
        ("1 1", "64", "0 steps (code 28): writer: data := 1: data has 1 write, and no write 2"),
        ("2 0\n2 5", "64", "1 step (code 28): reader: if a = 0 goto poll: it picks no write, and its position is 5, not 0"),
        ("1 0\n1 0\n2 1\n2 0\n2 0", "64", "4 steps (code 28): reader: b <- data: write 1 of data is before its own, write 2"),
        ("1 0", "2", "0 steps (code 29): writer: data := 1: there is room for 2 writes and no more"),
        ("", "1", "0 steps (code 29): 2 writes at the start, and room for 1"),
    ] {
        assert_eq!(polling(steps, entries), format!("REFUSED after {why}"));
    }
    let covered = refused("tickets", "1 0\n2 0", "64");
    assert!(
        covered.starts_with("REFUSED after 1 step (code 28): ") && covered.ends_with(" is covered"),
        "{covered}"
    );
}

#[test]
fn registers_that_are_given() {
    let boot = example("boot");
    let with = |given: &str| told(fed(&["replay", &boot, "-", "--given", given], b"reader 0\n"));
    let (status, out, _) = with("v = 3, got = 15");
    assert!(status == 0 && out.starts_with("     start: v = 3, seen = 0, got = 7\n"), "{out}");
    assert_eq!(with("none = 1").2, "--given: `none` is no register\n");
    let (status, _, err) = run(&["replay", &example("polling"), "-", "--given", "a = 1"]);
    assert_eq!((status, err.as_str()), (2, "--given: `a` starts at 0\n"));
}

#[test]
fn what_is_not_accepted() {
    let wrong = example("message-passing-wrong-1");
    let (status, out, _) = told(fed(&["replay", &wrong, "-"], b"1 0\n"));
    let want = format!("{wrong}: NOT REPLAYED (code 24): REFUSED: class 4, ");
    assert!(status == 1 && out.starts_with(&want), "{out}");
}

#[test]
fn as_json() {
    let args = ["replay", &example("polling"), "-", "--json", "--entries", "2"];
    let (status, out, _) = told(fed(&args, b"2 0\n1 0\n"));
    let start = format!(
        "{{\"version\":1,\"command\":\"replay\",\"status\":1,\
         \"file\":\"{}\",\"code\":29,\"steps\":1,\"points\":[0,1],\"registers\":[0,0],\
         \"table\":[[0,0,0,0,0,0,0,0,0,0,0],[0,0,0,0,0,0,0,0,0,0,0]],\"told\":[\"  1. reader: ",
        example("polling")
    );
    assert!(status == 1 && out.starts_with(&start), "{out}");
    assert!(out.ends_with(&format!("\"replayer\":\"{}\"}}\n", replayer())), "{out}");
}

#[test]
fn a_drawing() {
    let folder = Folder::new("replay-svg");
    let svg = folder.file("run.svg");
    let trace = folder.with("trace", PASSED);
    let (status, out, _) = run(&["replay", &example("polling"), &trace, "-o", &svg]);
    assert!(status == 0 && out.ends_with(&format!("7 steps   ({})\n", replayer())), "{out}");
    let drawn = std::fs::read_to_string(&svg).expect("a drawing");
    assert!(drawn.starts_with("<svg ") && drawn.contains("writer at point 2, reader at point 3"));
    let (_, out, err) = run(&["replay", &example("polling"), &trace, "-o", "-"]);
    assert!(out.trim_end() == drawn.trim_end() && err.starts_with("  1. reader"), "{err}");
    let long = folder.with("long", &"reader 0\n".repeat(201));
    let (status, _, err) = run(&["replay", &example("polling"), &long, "-o", &svg]);
    assert_eq!((status, err.as_str()), (2, "a drawing has at most 200 steps\n"));
}

#[test]
fn wrong_use() {
    let said = |args: &[&str]| {
        let (status, out, err) = run(args);
        assert_eq!((status, out.as_str()), (2, ""), "{err}");
        err
    };
    let wanted = "an outline or image and a trace are wanted; see outline --help\n";
    assert_eq!(said(&["replay", &example("polling")]), wanted);
    let twice = "standard input is one file: the image or the trace\n";
    assert_eq!(said(&["replay", "-", "-"]), twice);
    let many = "`--entries` wants a number up to 64, found `65`\n";
    assert_eq!(said(&["replay", "x", "y", "--entries", "65"]), many);
    let (status, out, err) =
        told(fed(&["replay", &example("polling"), "-"], b"writer\nnobody 0\n"));
    let want = "standard input:1: a step is a thread and a position\n\
        standard input:2: `nobody` is no thread: names, or numbers from 0 to 255\n";
    assert_eq!((status, out.as_str(), err.as_str()), (2, "", want));
}
