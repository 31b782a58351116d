//! `handover`: the table that it finds or judges, what it says of a wrong one, and the machine's word on both.

mod program;

use outline::text::parse_source::parse;
use program::{example, judge, run, Folder};
use reference::checker::check;
use reference::explore::truth::is_true;
use reference::explore::{across, Bounds};
use reference::handover::{check_handover, permitted, Handover};
use reference::image::Program;
use reference::machine::{take, State, Step};
use std::path::Path;

fn update(name: &str) -> String {
    example(&format!("update/{name}"))
}

fn source(name: &str) -> Program {
    let text = std::fs::read_to_string(update(name)).expect("the example is there");
    parse(&text).expect("in order").program()
}

fn read(file: &str) -> Vec<u8> {
    std::fs::read(file).expect("written")
}

/// Files for a new image and a table, and the bytes of the old image.
struct Files {
    folder: Folder,
    image: String,
    table: String,
}

impl Files {
    fn new(test: &str) -> Files {
        let folder = Folder::new(test);
        let (image, table) = (folder.file("new.image"), folder.file("new.table"));
        Files { folder, image, table }
    }

    /// Seeks a table from the old code to the new one.
    fn seek(&self, map: &[&str]) -> (i32, String, String) {
        let (old, new) = (update("old"), update("new"));
        let mut args = vec!["handover", &old, &new, "-o", &self.image, "--table", &self.table];
        map.iter().for_each(|map| args.extend(["--map", map]));
        run(&args)
    }

    fn judge(&self, old: &str, new: &str) -> (i32, String, String) {
        run(&["handover", old, new, "--table", &self.table])
    }

    fn old_image(&self) -> Vec<u8> {
        let file = self.folder.file("old.image");
        assert_eq!(run(&["build", &update("old"), "-o", &file]).0, 0);
        read(&file)
    }
}

/// Who permits, by the last line of what is told.
fn permit(out: &str) -> String {
    let last = out.lines().last().expect("a last line");
    let name = last.rsplit_once("   (").expect("who permits").1.trim_end_matches(')').to_string();
    assert!(["independent handover", "proved handover"].contains(&name.as_str()), "{last}");
    assert!(cfg!(feature = "proved") || name == "independent handover");
    name
}

const BOUNDS: Bounds = Bounds { steps: 20, writes: 6, starts: 64, states: 10_000 };
/// Where the example's page lets the reader go on.
const CHOSEN: [&str; 3] = ["reader.looked=looked", "reader.up=up", "reader.done=once"];

#[test]
fn points_are_proposed() {
    let files = Files::new("handover");
    let (status, out, err) = files.seek(&[]);
    let Files { image, table, .. } = &files;
    let want = format!(
        "{image}: 4798 bytes, 92 formulas, 171 lines\n\
         {table}: 21 bytes\n\
         \x20 writer 0 (line 13) -> writer 0 (line 14)   line 131, the same assertion\n\
         \x20 writer 1 (line 15) -> writer 1 (line 16)   line 40, the same assertion\n\
         \x20 writer 2 (line 17) -> writer 2 (line 18)   line 44, the same assertion\n\
         \x20 reader 0 (poll, line 23) -> reader 1 (poll, line 26)   line 164\n\
         \x20 reader 1 (looked, line 25) -> reader 1 (poll, line 26)   line 165\n\
         \x20 reader 2 (up, line 27) -> reader 2 (again, line 28)   line 170\n\
         \x20 reader 3 (done, line 29) -> reader 3 (up, line 30)   line 171\n\
         11 lines for the table alone: `outline trim` would drop them\n\
         PERMITTED: 7 old points with a line   ({})\n",
        permit(&out)
    );
    assert_eq!((status, out, err.as_str()), (0, want, ""));
    assert_eq!(read(table)[..9], [0, 131, 0, 1, 40, 0, 2, 44, 0]);
    assert_eq!(check_handover(&files.old_image(), &read(image), &read(table)), 0);
}

/// The example's handover is permitted, and no run across it ends with a false assertion.
#[test]
fn chosen_points() {
    let files = Files::new("handover-chosen");
    let (status, out, _) = files.seek(&CHOSEN);
    assert_eq!(status, 0, "{out}");
    for said in [
        "reader 1 (looked, line 25) -> reader 0 (looked, line 24)",
        "reader 2 (up, line 27) -> reader 3 (",
    ] {
        assert!(out.contains(said), "{out}");
    }
    let (old, new, table) = (files.old_image(), read(&files.image), read(&files.table));
    assert_eq!(check(&new).code, 0);
    let handover = permitted(&old, &new, &table).expect("permitted");
    assert_eq!(handover.points, [vec![0, 1, 2], vec![1, 0, 3, 4]]);
    let found = across(&handover, BOUNDS);
    assert!(found.all && found.broken.is_none() && found.states.1 > 9, "{found:?}");
    // The table stands for the image that was written, from the old outline or its image.
    let (status, out, _) = files.judge(&update("old"), &files.image);
    let want = format!("PERMITTED: 7 old points with a line   ({})\n", permit(&out));
    assert_eq!((status, out), (0, want));
}

/// A reader that has looked goes on as if the flag had been up.
const WRONG: &str = "reader.looked=up";

#[test]
fn a_wrong_handover_is_refused() {
    let files = Files::new("handover-wrong");
    let (status, out, err) = files.seek(&[WRONG]);
    let want =
        "open: reader 1 (looked, line 25): its assertion does not give that of new point 3 (up)
  old          Coming and (a = 0 or reader sees [data = 1])
  new 3        reader sees [data != 0]
  open case    reader sees [flag = 0] ; [unsync flag] ; [data = 1], a = 0
  missing      reader sees [data != 0]
FALSE: a run of 1 step, the handover and 0 steps breaks an assertion
  1. reader: a <-acq flag   reads 0 from write 1
     then a = 0, b = 0
     data was written 0
     flag was written 0
     handover: writer at point 0, reader at up
false: reader at up: reader sees [data != 0]
1 of 7 old points have no line; nothing is written
";
    assert_eq!((status, out.as_str(), err.as_str()), (1, "", want));
    assert!(!Path::new(&files.image).exists() && !Path::new(&files.table).exists());
    let (old, new) = (update("old"), update("new"));
    let json = [
        "handover",
        &old,
        &new,
        "-o",
        &files.image,
        "--table",
        &files.table,
        "--map",
        WRONG,
        "--json",
    ];
    let (status, out, _) = run(&json);
    assert!(
        status == 1
            && out.contains("\"status\":1,\"permitted\":false,\"code\":34,\"told\":[\"open: "),
        "{out}"
    );
}

/// Under the wrong handover the reader reads 0, and its new last assertions are false.
#[test]
fn a_wrong_handover_breaks() {
    let points = vec![vec![0, 1, 2], vec![1, 3, 3, 4]];
    let wrong = Handover { old: source("old"), new: source("new"), points };
    let broken = across(&wrong, BOUNDS).broken.expect("a run breaks it");
    let [load, read] = [Step { thread: 2, position: 0 }, Step { thread: 2, position: 0 }];
    assert_eq!((broken.first, broken.second, broken.thread), (vec![load], vec![], 2));
    // The same run goes on to the reader's next point and to its last.
    let start = State::start(&wrong.old.header);
    let looked = take(&wrong.old.threads, &start, load).expect("flag is 0");
    let mut state = wrong.mapped(&looked);
    for point in [4, 5] {
        state = take(&wrong.new.threads, &state, read).expect("data is 0");
        assert_eq!((state.points[1], state.registers[1]), (point, 0));
        assert!(!is_true(wrong.new.assertion(2, point), &state, &wrong.new.header));
    }
}

/// No line of the image serves the wrong handover.
#[test]
fn no_line_permits_it() {
    let files = Files::new("handover-34");
    assert_eq!(files.seek(&[]).0, 0);
    let (old, new, mut table) = (files.old_image(), read(&files.image), read(&files.table));
    table[12] = 3;
    for line in 1..=171u16 {
        table[13..15].copy_from_slice(&line.to_le_bytes());
        assert_eq!(check_handover(&old, &new, &table), 34, "line {line}");
    }
    std::fs::write(&files.table, &table).expect("written");
    let (status, out, err) = files.judge(&update("old"), &files.image);
    let want = "REFUSED: reader 1 (looked, line 25): line 171 is no justified implication from its assertion to that of \
                new point 3 (code 34)   (";
    assert!((status, out.as_str()) == (1, "") && err.starts_with(want), "{err}");
}

#[test]
fn tables_out_of_range() {
    let files = Files::new("handover-33");
    assert_eq!(files.seek(&[]).0, 0);
    let table = read(&files.table);
    let said = |bytes: &[u8]| {
        std::fs::write(&files.table, bytes).expect("written");
        let (status, out, err) = files.judge(&update("old"), &files.image);
        assert_eq!((status, out.as_str()), (1, ""));
        err.split_once("   (").expect("who says it").0.to_string()
    };
    let short = "REFUSED: the table has 20 bytes; 7 old points want 21 (code 33)";
    assert_eq!(said(&table[..20]), short);
    let mut other = table.clone();
    other[19..].copy_from_slice(&[0, 0]);
    let line = "REFUSED: reader 3 (done, line 29): there is no new point 3, or no line 0 (code 33)";
    assert_eq!(said(&other), line);
    other = table.clone();
    other[0] = 3;
    let point = "REFUSED: writer 0 (line 13): there is no new point 3, or no line 131 (code 33)";
    assert_eq!(said(&other), point);
}

#[test]
fn images_that_are_unlike_or_refused() {
    let files = Files::new("handover-32");
    let Files { image, table, .. } = &files;
    let said = |old: &str, new: &str| {
        let (status, out, err) = run(&["handover", old, new, "-o", image, "--table", table]);
        assert_eq!((status, out.as_str()), (1, ""));
        assert!(!Path::new(image).exists() && !Path::new(table).exists());
        err
    };
    let (old, parity) = (update("old"), example("parity"));
    let unlike =
        format!("REFUSED: {old} and {parity} do not have the same number of words (code 32)   (");
    assert!(said(&old, &parity).starts_with(&unlike), "{}", said(&old, &parity));
    let wrong = example("polling-wrong-1");
    let err = said(&old, &wrong);
    assert!(err.starts_with(&format!("{wrong}: REFUSED: class 2, ")), "{err}");
    let last = format!("({})\n{wrong}: only accepted images are handed over (code 32)\n", judge());
    assert!(err.ends_with(&last), "{err}");
}

/// Trimming drops the lines that only the table names.
#[test]
fn trimmed_too_late() {
    let files = Files::new("handover-trim");
    assert_eq!(files.seek(&CHOSEN).0, 0);
    let small = files.folder.file("small.image");
    assert_eq!(run(&["trim", &files.image, "-o", &small]).0, 0);
    assert_ne!(files.judge(&update("old"), &small).0, 0);
    // Lines for the table are added to the trimmed image again.
    let again = files.folder.file("again.image");
    let args = ["handover", &update("old"), &small, "-o", &again, "--table", &files.table];
    let (status, out, _) = run(&args);
    assert!(status == 0 && out.contains("reader 0 (poll, line 23) -> t2 1   line "), "{out}");
    assert_eq!(files.judge(&update("old"), &again).0, 0);
}

#[test]
fn wrong_use() {
    let said = |args: &[&str]| {
        let (status, out, err) = run(args);
        assert_eq!((status, out.as_str()), (2, ""));
        err
    };
    let (old, new) = (update("old"), update("new"));
    let none = "an old and a new file are wanted; see outline --help\n";
    assert_eq!(said(&["handover", &old, "--table", "t"]), none);
    assert_eq!(said(&["handover", &old, &new]), "`--table FILE` is wanted; see outline --help\n");
    let files = Files::new("handover-use");
    for map in
        ["reader.looked", "looked=up", "reader.9=0", "writer.0=looked", "reader.0=6", "r.0=0"]
    {
        let (status, _, err) = files.seek(&[map]);
        assert!(status == 2 && err.starts_with("`--map` wants THREAD.POINT=POINT"), "{err}");
        assert!(err.ends_with(&format!("found `{map}`\n")), "{err}");
    }
    let judged = said(&["handover", &old, &new, "--table", "t", "--map", "reader.0=0"]);
    assert_eq!(judged, "`--map` is for a table that is sought: `-o FILE` is wanted\n");
    assert!(said(&["handover", &old, &new, "--table", "none.table"]).starts_with("none.table: "));
}
