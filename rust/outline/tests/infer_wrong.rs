//! `infer` of the wrong variants of the gallery: each wish is told false with a run that breaks it, or is not found; one
//! that is accepted is true in every state.

use outline::infer::{infer, Answer, Wish};
use outline::terms::{holds, truth};
use outline::text::parse_source::parse;
use outline::text::source::Source;
use reference::checker::check;
use reference::explore::truth::is_true;
use reference::explore::{find, Bounds};
use reference::image::Program;
use reference::machine::{take, State};
use std::path::PathBuf;

/// The tries for each of them.
const TRIES: u64 = 60_000;
const BOUNDS: Bounds = Bounds { steps: 60, writes: 8, starts: 64, states: 60_000 };

/// The wrong variants with their names.
fn variants() -> Vec<(String, String)> {
    let folder = PathBuf::from(env!("CARGO_MANIFEST_DIR")).join("../../examples");
    let entries = std::fs::read_dir(folder).expect("the gallery");
    let mut paths: Vec<PathBuf> = entries.map(|entry| entry.expect("a file").path()).collect();
    paths.sort();
    let name = |path: &PathBuf| path.file_name().expect("a name").to_string_lossy().into_owned();
    paths.retain(|path| name(path).contains("-wrong-") && name(path).ends_with(".outline"));
    paths.iter().map(|p| (name(p), std::fs::read_to_string(p).expect("a text"))).collect()
}

/// The program with its claims and its last assertions, and holes at all other points.
fn asked(text: &str) -> Source {
    let mut source = parse(text).expect("an outline");
    source.hints.clear();
    for points in &mut source.points {
        let (_, others) = points.split_last_mut().expect("a last point");
        for point in others {
            (point.hole, point.assertion) = (true, holds(&truth()));
        }
    }
    source
}

/// Whether the wish is broken in a state.
fn breaks(source: &Source, program: &Program, state: &State) -> bool {
    let last = |thread: u8, point: u8| program.instruction(thread, point).is_none();
    let wrong = |(thread, point): (u8, u8)| {
        last(thread, point) && !is_true(program.assertion(thread, point), state, &program.header)
    };
    let met = source.meetings().iter().any(|meeting| state.has_meeting(meeting));
    met || (1..).zip(state.points.iter().copied()).any(wrong)
}

#[test]
fn no_wrong_variant_is_accepted_falsely() {
    let (mut told, mut unfound, mut nothing, mut accepted) = (0, 0, 0, Vec::new());
    for (name, text) in variants() {
        let source = asked(&text);
        let (program, wish) = (source.program(), Wish::of(&source, false));
        if wish.is_empty() {
            nothing += 1;
            continue;
        }
        match infer(&source, &wish, TRIES, &|_, _| true) {
            Answer::False(run, _) => {
                let end = run.steps.iter().fold(run.start.clone(), |state, step| {
                    take(&program.threads, &state, *step).expect("a step of the run")
                });
                assert!(breaks(&source, &program, &end), "{name}: the run breaks nothing");
                told += 1;
            }
            Answer::NotFound(_) => unfound += 1,
            Answer::Found(found) => {
                assert_eq!(check(&found.bytes).code, 0, "{name}");
                let broken = find(&program, BOUNDS, &|state| breaks(&source, &program, state));
                assert!(broken.runs[0].is_none(), "{name}: false, and accepted");
                accepted.push(name);
            }
        }
    }
    println!(
        "{told} told false, {unfound} not found, {nothing} ask nothing, accepted: {accepted:?}"
    );
    assert!(told + unfound + nothing + accepted.len() >= 52, "all variants of the gallery");
    assert!(told >= 40 && accepted.len() <= 6, "{told} told false, accepted: {accepted:?}");
}
