//! Images keep their verdicts, and what cannot be read is refused.

use outline::migrate::{set, Refusal, Step};
use reference::checker::obligations::{duties, Duty};
use reference::checker::{check, decode};
use reference::image::Thread;
use reference::stored::{stored_images, StoredImage};

/// Samples of the stored sets from before each step, with the verdicts of that time.
const SAMPLES: [(Step, &[u8]); 3] = [
    (Step::Range, include_bytes!("before-range.bin")),
    (Step::Marks, include_bytes!("before-marks.bin")),
    (Step::Actors, BEFORE_ACTORS),
];
const BEFORE_ACTORS: &[u8] = include_bytes!("before-actors.bin");

/// The scope page's first small image, as it was before any step.
const SMALL: [u8; 49] = [
    6, 0, 1, 0, 1, 1, 0, 0, 5, 0, 2, 0, 28, 11, 8, 3, 0, 2, 0, 27, 3, 0, 3, 0, 1, 4, 0, 4, 0, 1, 0,
    10, 0, 5, 0, 20, 0, 0, 2, 0, 1, 0, 0, 4, 0, 6, 0, 1, 0,
];

/// The small image with another header.
fn small_with(header: &[u8]) -> Vec<u8> {
    let length = header.len() as u8 + 2;
    [&[length, 0, 1, 0][..], header, &SMALL[8..]].concat()
}

/// The steps from this one on, in their order.
fn from_here_on(first: Step) -> impl Iterator<Item = Step> {
    Step::ALL.into_iter().map(|(_, step)| step).skip_while(move |step| *step != first)
}

/// The set after the step. Left out are headers that have a wrong length, and nothing else.
fn rewritten(sample: &[u8], step: Step) -> set::Rewritten {
    let cases = stored_images(sample).expect("the sample is whole");
    let set = set::rewrite(sample, step).expect("the sample is whole");
    assert_eq!(cases.len(), set.rewritten + set.kept + set.left_out.len());
    for (number, refusal) in &set.left_out {
        let [code, record, ..] = cases[number - 1].fields;
        assert_eq!((code, record, *refusal), (5, 1, Refusal::Header), "case {number}");
    }
    for (number, before, after) in &set.afresh {
        assert_eq!((before[2], after[2]), (4, 4), "case {number}");
    }
    set
}

#[test]
fn stored_verdicts_are_kept() {
    for (first, sample) in SAMPLES {
        let mut set = rewritten(sample, first);
        assert!(set.rewritten >= 300, "{first:?}: {} rewritten", set.rewritten);
        for step in from_here_on(first).skip(1) {
            set = rewritten(&set.bytes, step);
        }
        let cases = stored_images(&set.bytes).expect("a set");
        let kept =
            |case: &&StoredImage| check(case.image).fields() == case.fields || is_known_since(case);
        assert_eq!(cases.iter().filter(kept).count(), cases.len(), "{first:?}");
        assert_eq!(cases.len(), set.rewritten + set.kept);
        let since = cases.iter().filter(|case| is_known_since(case)).count();
        assert!(since <= 5, "{first:?}: {since} differ");
    }
}

/// Operations 9 to 12, which have ten bytes, have come since, and rule 50: what was a number out of range is a length
/// now, or no fault of that record.
fn is_known_since(case: &StoredImage) -> bool {
    let [code, record, ..] = case.fields;
    let now = check(case.image);
    let longer = (now.code, now.record) == (5, record);
    code == 6 && (longer || now.record == 0 || now.record > record)
}

/// The obligations of class 4 with their lines, in the order from before the actors.
fn by_asserting_side(threads: &[Thread], lines: &[u16]) -> Vec<(Duty, u16)> {
    let mut kept: Vec<Duty> = duties(threads);
    kept.retain(|duty| matches!(duty, Duty::Kept { .. }));
    kept.sort_by_key(|duty| match *duty {
        Duty::Kept { thread, point, actor, action } => (thread, point, actor, action),
        _ => unreachable!("only class 4 is left"),
    });
    let first = lines.len() - kept.len();
    kept.into_iter().zip(lines[first..].iter().copied()).collect()
}

#[test]
fn every_obligation_keeps_its_line() {
    let mut moved = 0;
    for case in stored_images(BEFORE_ACTORS).expect("the sample is whole") {
        let Ok(before) = decode(case.image) else { continue };
        let image = Step::Actors.rewrite(case.image).expect("an earlier image");
        let after = decode(&image).expect("still in order");
        let threads = &before.program.threads;
        let all: Vec<(Duty, u16)> =
            duties(threads).into_iter().zip(after.obligations.iter().copied()).collect();
        let class_4 = by_asserting_side(threads, &before.obligations);
        let first = all.len() - class_4.len();
        assert_eq!(before.obligations[..first], after.obligations[..first]);
        assert!(class_4.iter().all(|with_line| all.contains(with_line)));
        assert_eq!(check(&image).code == 0, case.fields[0] == 0);
        moved += usize::from(before.obligations != after.obligations);
    }
    assert!(moved >= 50, "{moved} images have lines that move");
}

#[test]
fn verdicts_of_class_4_are_made_afresh_and_no_others() {
    let cases = stored_images(BEFORE_ACTORS).expect("the sample is whole");
    let set = rewritten(BEFORE_ACTORS, Step::Actors);
    let class_4 = (1..).zip(&cases).filter(|(_, case)| case.fields[2] == 4).map(|(n, _)| n);
    let afresh: Vec<usize> = set.afresh.iter().map(|(number, ..)| *number).collect();
    assert_eq!(afresh, class_4.collect::<Vec<usize>>());
    let changed = set.afresh.iter().filter(|(_, before, after)| before != after).count();
    assert!(changed >= 20, "{changed} of {} changed", afresh.len());
}

#[test]
fn every_kind_of_verdict_is_in_each_sample() {
    for (step, sample) in SAMPLES {
        let cases = stored_images(sample).expect("the sample is whole");
        for code in [0, 2, 3, 4, 5, 6, 7, 8, 9, 20, 21, 22, 23] {
            assert!(cases.iter().any(|case| case.fields[0] == code), "{step:?}: code {code}");
        }
    }
}

#[test]
fn the_small_image_gains_its_range() {
    let image = Step::Range.rewrite(&SMALL).expect("an earlier image");
    assert_eq!(image, small_with(&[1, 1, 0, 8, 0]));
    assert_eq!(check(&image).to_string(), "0 0 0 0 0 0 0 0 1");
}

#[test]
fn each_register_gains_a_mark() {
    let image = Step::Marks.rewrite(&small_with(&[1, 2, 3, 16, 9, 15, 1, 1, 1]));
    let image = image.expect("an earlier image");
    assert_eq!(image, small_with(&[1, 2, 3, 16, 9, 15, 1, 1, 1, 1, 1, 1]));
    assert_eq!(check(&image).to_string(), "0 0 0 0 0 0 0 0 1");
    let none = small_with(&[1, 1, 0, 8, 0]);
    assert_eq!(Step::Marks.rewrite(&none), Ok(none));
}

#[test]
fn no_image_is_rewritten_twice() {
    let twice = |step: Step, header: &[u8]| {
        let once = step.rewrite(&small_with(header)).expect("an earlier image");
        assert_eq!(step.rewrite(&once), Err(Refusal::Header), "{step:?}");
    };
    twice(Step::Range, &[1, 1, 0, 0]);
    twice(Step::Range, &[1, 1, 1, 0, 1]);
    twice(Step::Marks, &[1, 1, 1, 8, 0, 1]);
    // Of class 4 the bytes do not say in which order it is.
    assert_eq!(
        Step::Actors.rewrite(&small_with(&[1, 1, 0, 8, 0])),
        Ok(small_with(&[1, 1, 0, 8, 0]))
    );
}

#[test]
fn what_cannot_be_read_is_refused() {
    for (_, step) in Step::ALL {
        let refused = |image: &[u8]| step.rewrite(image).expect_err("not readable");
        assert_eq!(refused(&[]), Refusal::Frames);
        assert_eq!(refused(&SMALL[..48]), Refusal::Frames);
        assert_eq!(refused(&[&SMALL[..], &[0]].concat()), Refusal::Frames);
    }
    for step in [Step::Range, Step::Marks] {
        let refused = |image: &[u8]| step.rewrite(image).expect_err("not readable");
        let mut more_words = SMALL;
        more_words[5] = 2;
        assert_eq!(refused(&more_words), Refusal::Header);
        assert_eq!(refused(&small_with(&[1, 1])), Refusal::Header);
    }
    let unordered = |place: usize, byte: u8| {
        let mut image = SMALL;
        image[place] = byte;
        Step::Actors.rewrite(&image)
    };
    assert_eq!(unordered(24, 2), Err(Refusal::Lengths)); // an instruction is missing
    assert_eq!(unordered(24, 1), Ok(SMALL.to_vec()));
    let more = [&SMALL[..43], &[6, 0, 6, 0, 1, 0, 1, 0]].concat();
    assert_eq!(Step::Actors.rewrite(&more), Err(Refusal::Lengths)); // a line too many
    let half = [&SMALL[..43], &[5, 0, 6, 0, 1, 0, 1]].concat();
    assert_eq!(Step::Actors.rewrite(&half), Err(Refusal::Lengths)); // half a number
                                                                    // A header of one layout is none of another.
    assert_eq!(Step::Marks.rewrite(&SMALL), Err(Refusal::Header));
    let marked = small_with(&[1, 1, 1, 8, 0, 1, 1]);
    assert_eq!(Step::Range.rewrite(&marked), Err(Refusal::Header));
}

/// The small image of a header with formulas that nothing uses, up to a length.
fn padded(header: &[u8], length: usize) -> Vec<u8> {
    let small = small_with(header);
    let formulas = header.len() + 4 + 12;
    let wanted = length - small.len();
    let filler = |bytes: usize| {
        let body = bytes - 4;
        [&(body as u16 + 2).to_le_bytes()[..], &[2, 0], &vec![8; body]].concat()
    };
    // Formulas may be too long: no step looks at them.
    let (full, rest) = (wanted / 20_000 - 1, wanted % 20_000 + 20_000);
    [&small[..formulas], &filler(20_000).repeat(full), &filler(rest), &small[formulas..]].concat()
}

#[test]
fn an_image_stays_within_its_limit() {
    for (step, header, more) in
        [(Step::Range, &[1, 1, 0, 0][..], 1), (Step::Marks, &[1, 1, 2, 8, 0, 1, 1], 2)]
    {
        let longest = step.rewrite(&padded(header, 262_144 - more));
        assert_eq!(longest.map(|image| image.len()), Ok(262_144));
        assert_eq!(step.rewrite(&padded(header, 262_145 - more)), Err(Refusal::Length));
    }
}

#[test]
fn lengths_of_a_set_become_longer() {
    let verdict = [7; 18];
    let short = [&[1, 0, 9][..], &verdict, &[0, 0], &verdict].concat();
    let long = [&[1, 0, 0, 0, 9][..], &verdict, &[0; 4], &verdict].concat();
    assert_eq!(set::with_long_lengths(&short), Some(long));
    assert_eq!(set::with_long_lengths(&short[..40]), None);
    assert_eq!(set::with_long_lengths(&short[..1]), None);
}

#[test]
fn a_set_that_is_cut_short_is_refused() {
    for (step, sample) in SAMPLES {
        assert_eq!(set::rewrite(&sample[..sample.len() - 1], step), None);
    }
}

/// The samples are beside this file.
fn sample(name: &str) -> String {
    format!("{}/tests/migrate/{name}", env!("CARGO_MANIFEST_DIR"))
}

/// The command `migrate` with these words: its status, and what it says.
fn command(words: &[&str]) -> (Option<i32>, String, String) {
    let mut tool = std::process::Command::new(env!("CARGO_BIN_EXE_outline"));
    let ended = tool.arg("migrate").args(words).output().expect("run");
    let text = |bytes: &[u8]| String::from_utf8_lossy(bytes).into_owned();
    (ended.status.code(), text(&ended.stdout), text(&ended.stderr))
}

#[test]
fn the_command_writes_images_and_sets() {
    let folder = std::env::temp_dir().join(format!("outline-migrate-{}", std::process::id()));
    std::fs::create_dir_all(&folder).expect("a folder");
    let file = |name: &str| folder.join(name).to_string_lossy().into_owned();
    let (from, to, set) = (file("small.image"), file("range.image"), file("range.set"));
    std::fs::write(&from, SMALL).expect("written");

    let (status, out, err) = command(&["range", &from, "-o", &to]);
    assert_eq!((status, err.as_str()), (Some(0), ""));
    assert!(out.contains(": 50 bytes\nACCEPTED: 1 obligation met   ("), "{out}");
    assert_eq!(std::fs::read(&to).expect("written"), Step::Range.rewrite(&SMALL).expect("read"));
    // It is in the next layout now, and a file of another kind is left alone.
    let (status, _, err) = command(&["range", &to, "-o", &file("twice.image")]);
    assert!(status == Some(2) && err.contains("not of the earlier layout"), "{err}");
    assert_eq!(command(&["sideways", &from, "-o", &to]).0, Some(2));

    let samples = sample("before-range.bin");
    let (status, out, _) = command(&["range", "--set", &samples, "-o", &set]);
    let expected = rewritten(SAMPLES[0].1, Step::Range);
    let counts = format!("\n{} rewritten, {} kept, ", expected.rewritten, expected.kept);
    assert!(status == Some(0) && out.contains(&counts), "{out}");
    assert_eq!(std::fs::read(&set).expect("written"), expected.bytes);
    assert_eq!(command(&["range", "--set", &samples, "-o", &to]).0, Some(2));
    std::fs::remove_dir_all(&folder).expect("removed");
}
