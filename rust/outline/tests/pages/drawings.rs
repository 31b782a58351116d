//! What a drawing shows.

use crate::reader::{count, tags};
use crate::{example, folder, names, run};

fn drawn(name: &str) -> (i32, String) {
    let (status, out, _) = run(&["draw", &example(name), "-o", "-"]);
    (status, out)
}

/// A hand-over with the last release dropped: seven steps until the last assertion is false, three reads, one acquire.
#[test]
fn the_run_to_a_false_last_assertion_is_drawn() {
    let (status, svg) = drawn("three-threads-wrong-1");
    let all = tags(&svg);
    assert_eq!((status, count(&all, "run-number"), count(&all, "run-broken")), (1, 7, 1));
    // One arrow for each, and one each in the legend.
    assert_eq!((count(&all, "run-reads"), count(&all, "run-syncs")), (4, 2));
    assert!(
        svg.contains(">Not so: c != 1</text>") && svg.contains(">Not so: d = 1</text>"),
        "{svg}"
    );
}

/// The same with nothing said at the last point: five steps until an assertion on the way is false, one read, one acquire.
#[test]
fn steps_reads_and_acquires_are_drawn() {
    let folder = folder("three");
    let text = std::fs::read_to_string(example("three-threads-wrong-1")).expect("readable");
    let file = folder.join("three.outline");
    std::fs::write(&file, text.replace("{ c = 1 => d = 1 }", "{ true }")).expect("written");
    let (status, svg, _) = run(&["draw", file.to_str().expect("a name"), "-o", "-"]);
    let _ = std::fs::remove_dir_all(folder);
    let all = tags(&svg);
    assert_eq!(status, 1);
    assert_eq!(count(&all, "run-number"), 5);
    // One arrow each, and one each in the legend.
    assert_eq!((count(&all, "run-reads"), count(&all, "run-syncs")), (2, 2));
    assert_eq!(count(&all, "run-broken"), 1);
    assert_eq!(count(&all, "run-rel"), 2, "flag1's write, before and after the step");
    for text in ["a &lt;-acq flag1", "reads 1", "goes to point 2"] {
        assert!(svg.contains(&format!(">{text}</text>")), "{text}");
    }
    assert!(svg.contains(">Not so: Onward, that is third sees [flag2 = 0] ; [unsync flag2] ;"));
    let may = "third may come to see: (data = 0, flag1 = 1, flag2 = 1)";
    assert!(svg.contains(may), "{svg}");
}

#[test]
fn covered_writes_and_views_are_drawn() {
    let (_, svg) = drawn("swap-race-wrong-2");
    let all = tags(&svg);
    assert!(count(&all, "run-covered") > 0);
    assert!(svg.contains("Before step 3: the writes, and where each view is"));
    let before =
        svg.split("Before step 3").nth(1).and_then(|rest| rest.split("After step 3").next());
    let views = before.expect("a part").matches("run-mark").count();
    assert_eq!(views, 2, "two threads at one word");
}

/// Every wrong variant has a run, whose drawing is well formed and whose texts lie inside.
#[test]
fn every_wrong_variant_is_drawn() {
    for name in names() {
        let (status, svg) = drawn(&name);
        let wrong = name.contains("-wrong-");
        assert_eq!(status, i32::from(wrong), "{name}");
        if !wrong {
            assert_eq!(svg, "", "{name}");
            continue;
        }
        let all = tags(&svg);
        let number = |tag: &crate::reader::Tag, what: &str| {
            tag.get(what).and_then(|n| n.parse::<i32>().ok())
        };
        let (width, height) =
            (number(&all[0], "width").expect("wide"), number(&all[0], "height").expect("high"));
        for tag in all.iter().filter(|tag| tag.name == "text") {
            let (x, y) = (number(tag, "x").expect("a place"), number(tag, "y").expect("a place"));
            assert!((0..width).contains(&x) && (0..height).contains(&y), "{name}");
        }
        let told = svg.contains("is false</text>") && svg.contains(">Not so: ");
        assert!(told || svg.contains(">Claimed never to meet: "), "{name}");
    }
}

#[test]
fn an_outcome_is_drawn_if_it_happens() {
    let wanted = ["draw", &example("message-passing-wrong-2"), "--outcome"];
    let (status, svg, err) = run(&[&wanted[..], &["a = 1 and b = 0", "-o", "-"]].concat());
    assert_eq!((status, err.as_str()), (1, "-: happens: a = 1 and b = 0, after 4 steps\n"));
    let all = tags(&svg);
    assert_eq!((count(&all, "run-number"), count(&all, "run-broken")), (4, 0));
    assert!(
        svg.contains(">At the end: a = 1 and b = 0</text>")
            && svg.contains(">registers: a = 1, b = 0</text>")
    );
    let (status, svg, err) =
        run(&["draw", &example("message-passing"), "--outcome", "a = 1 and b = 0", "-o", "-"]);
    assert_eq!((status, svg.as_str()), (0, ""));
    assert!(err.contains("nothing is drawn: never: a = 1 and b = 0, in all 13 states\n"), "{err}");
}

#[test]
fn use_of_draw() {
    let folder = folder("use-draw");
    let target = folder.join("r.svg");
    let target = target.to_str().expect("a name");
    let (status, out, _) = run(&["draw", &example("rrc2"), "-o", target]);
    assert_eq!((status, out.as_str()), (0, "nothing is drawn: accepted: no run breaks it\n"));
    assert!(!std::path::Path::new(target).exists());
    let (status, out, _) = run(&["draw", &example("rrc2-wrong-1"), "-o", target]);
    let told =
        "PROGRAM WRONG: a run of 4 steps breaks reader's last assertion: a = 1 =&gt; b = 1\n";
    assert_eq!((status, out), (1, format!("{target}: {}", told.replace("&gt;", ">"))));
    let svg = std::fs::read_to_string(target).expect("written");
    assert!(svg.starts_with("<svg xmlns=\"http://www.w3.org/2000/svg\""));
    assert_eq!(run(&["draw", &example("rrc2-wrong-1")]).0, 2);
    assert_eq!(run(&["draw", &example("rrc2"), "-o", target, "--outcome", "a ="]).0, 2);
    assert_eq!(run(&["draw", &example("rrc2"), "-o", target, "--partial"]).0, 2);
    let _ = std::fs::remove_dir_all(folder);
}

/// A thread that reads its own write: the arrow bends out to the right of the last column, and the drawing has room for it.
#[test]
fn arrows_stay_inside() {
    let folder = folder("arrows");
    let file = folder.join("own.outline");
    let text = "word x = 0 thread p { true } thread q { true }
thread t registers a { true } x := 1 { true } a <- x { true }";
    std::fs::write(&file, text).expect("written");
    let file = file.to_str().expect("a name");
    let (_, svg, _) = run(&["draw", file, "--outcome", "a = 1", "-o", "-"]);
    let all = tags(&svg);
    let width: i32 = all[0].get("width").and_then(|n| n.parse().ok()).expect("a width");
    let curve = all
        .iter()
        .filter(|tag| tag.has_class("run-reads"))
        .find_map(|tag| tag.get("d").filter(|path| path.contains('C')).map(String::from));
    let curve = curve.expect("an arrow");
    let numbers: Vec<i32> =
        curve.split(|c: char| !c.is_ascii_digit()).filter_map(|n| n.parse().ok()).collect();
    assert_eq!(numbers.len(), 8, "{curve}");
    assert!(numbers.iter().step_by(2).all(|x| *x < width), "{curve} in {width}");
    let _ = std::fs::remove_dir_all(folder);
}
