//! The words of a run against what the machine does.

use super::lex::Mistake;
use super::parse_trace::{joined, Said, Trace};
use super::print::Names;
use super::run;
use reference::image::Program;
use reference::machine::{take, State, Step};

/// Takes the steps of a trace from a state, and tells the first place where the words say something else. The state behind
/// the last step; none if a step is refused, for which replay has the reason.
pub fn compared(
    program: &Program,
    names: &Names,
    start: &State,
    trace: &Trace,
) -> Result<Option<State>, Mistake> {
    let mut state = start.clone();
    if let Some(said) = &trace.start {
        same(said, &format!("start: {}", run::registers(names, &state)), "at the start")?;
    }
    for (at, bytes) in trace.bytes.chunks_exact(2).enumerate() {
        let step = Step { thread: bytes[0], position: bytes[1].into() };
        let Some(next) = taken(program, names, &state, step, trace.told.get(at))? else {
            return Ok(None);
        };
        state = next;
    }
    for said in &trace.end {
        ended(names, &state, said)?;
    }
    Ok(Some(state))
}

/// The state after a step whose words are so; none if the step is refused.
fn taken(
    program: &Program,
    names: &Names,
    state: &State,
    step: Step,
    said: Option<&Said>,
) -> Result<Option<State>, Mistake> {
    let point = usize::from(step.thread).checked_sub(1).and_then(|at| state.points.get(at));
    let Some(instruction) = point.and_then(|point| program.instruction(step.thread, *point)) else {
        return Ok(None);
    };
    let next = take(&program.threads, state, step);
    let Some(said) = said else { return Ok(next) };
    let (_, told) = said.text.split_once(": ").expect("a step in words");
    // Points may be told by their numbers too, as in a run of an image.
    let plain = Names { labels: Vec::new(), ..names.clone() };
    let is_plain = |after: &State| {
        let done = run::effect(&plain, instruction, state, step, after);
        told == joined(&format!("{} {done}", plain.instruction(step.thread, instruction)))
    };
    if next.as_ref().is_some_and(is_plain) {
        return Ok(next);
    }
    let wanted = joined(&names.instruction(step.thread, instruction));
    let effect = told.strip_prefix(wanted.as_str()).filter(|rest| is_apart(rest));
    let Some(effect) = effect else {
        let who = names.thread(step.thread);
        return Err(said.mistake(format!("{who} is at `{wanted}` here, the line says: {told}")));
    };
    let Some(next) = next else { return Ok(None) };
    let done = run::effect(names, instruction, state, step, &next);
    match effect.trim_start() {
        same if same == joined(&done) => Ok(Some(next)),
        "" => Err(said.mistake(format!("the line does not say what `{wanted}` does"))),
        other => Err(said.mistake(format!("`{wanted}` {done} here, the line says: {other}"))),
    }
}

/// Whether nothing follows, or another word.
fn is_apart(rest: &str) -> bool {
    rest.is_empty() || rest.starts_with(' ')
}

/// A line about the end of the run.
fn ended(names: &Names, state: &State, said: &Said) -> Result<(), Mistake> {
    let Some((word, _)) = said.text.split_once(" was written ") else {
        return same(said, &format!("then {}", run::registers(names, state)), "at the end");
    };
    let number = (1..).zip(&names.words).find(|(_, name)| *name == word);
    match number {
        Some((number, _)) => same(said, &run::written(names, state, number), "at the end"),
        None => Err(said.mistake(format!("`{word}` is no word"))),
    }
}

fn same(said: &Said, wanted: &str, when: &str) -> Result<(), Mistake> {
    match said.text == joined(wanted) {
        true => Ok(()),
        false => {
            Err(said.mistake(format!("`{wanted}` is so {when}, the line says: {}", said.text)))
        }
    }
}

#[cfg(test)]
mod tests {
    use super::super::parse_source::parse;
    use super::super::parse_trace::trace;
    use super::*;
    use reference::replay;

    const SOURCE: &str = "word x = 0 word y = 0
thread t registers r, s { true } x := 1 | s := 2 { true } if s = 2 goto 3 { true } y := 1 { true } x := 3 { true }
thread u registers q { true } q <- x { true } q <- fetch-add x + 1 { true }";

    /// A run that is so, as the tool prints it.
    const RUN: &str = "  1. t: x := 1 | s := 2   writes 1 behind write 1, gives 2
  2. u: q <- x   reads 1 from write 2
  3. t: if s = 2 goto 3   goes to point 3
  4. u: q <- fetch-add x + 1   reads 1, writes 2 behind write 2
  5. t: x := 3   writes 3 behind write 3
     then r = 0, s = 2, q = 1
     x was written 0, 1, 2, 3
     y was written 0
";

    fn told(text: &str) -> Result<Option<Vec<u8>>, String> {
        let source = parse(SOURCE).expect("a source");
        let program = source.program();
        let trace = trace(&source.names, text).map_err(|all| all[0].to_string())?;
        let start = replay::start(&program.header, &[]);
        let end = compared(&program, &source.names, &start, &trace);
        end.map(|state| Some(state?.points)).map_err(|mistake| mistake.to_string())
    }

    #[test]
    fn a_run_that_is_so() {
        assert_eq!(told(RUN), Ok(Some(vec![4, 2])));
        assert_eq!(told(&RUN.replace("   ", " ").replace("  ", "\t")), Ok(Some(vec![4, 2])));
        // By the thread's number too, and up to a step that is refused: the replay says why.
        assert_eq!(told(&RUN.replace("2. u:", "2. 2:")), Ok(Some(vec![4, 2])));
        assert_eq!(told(&RUN.replace("reads 1 from write 2", "reads 1 from write 9")), Ok(None));
    }

    #[test]
    fn the_first_difference_is_told() {
        let first = "t is at `x := 1 | s := 2` here, the line says:";
        let added = "`q <- fetch-add x + 1` reads 1, writes 2 behind write 2 here, the line says:";
        for (so, said, line, want) in [
            ("x := 1 |", "x := 2 |", 1, format!("{first} x := 2 | s := 2 writes 1 behind write 1, gives 2")),
            ("x := 1 | s := 2", "launch missile", 1, format!("{first} launch missile writes 1 behind write 1, gives 2")),
            (
                "gives 2",
                "gives 3",
                1,
                "`x := 1 | s := 2` writes 1 behind write 1, gives 2 here, the line says: writes 1 behind write 1, gives 3".into(),
            ),
            (
                "reads 1 from write 2",
                "reads 0 from write 2",
                2,
                "`q <- x` reads 1 from write 2 here, the line says: reads 0 from write 2".into(),
            ),
            ("reads 1 from write 2", "", 2, "the line does not say what `q <- x` does".into()),
            (
                "goes to point 3",
                "goes to point 2",
                3,
                "`if s = 2 goto 3` goes to point 3 here, the line says: goes to point 2".into(),
            ),
            ("writes 2 behind write 2", "writes 3 behind write 2", 4, format!("{added} reads 1, writes 3 behind write 2")),
            (
                "q = 1",
                "q = 2",
                6,
                "`then r = 0, s = 2, q = 1` is so at the end, the line says: then r = 0, s = 2, q = 2".into(),
            ),
            (
                "0, 1, 2, 3",
                "0, 2, 1, 3",
                7,
                "`x was written 0, 1, 2, 3` is so at the end, the line says: x was written 0, 2, 1, 3".into(),
            ),
            ("y was", "z was", 8, "`z` is no word".into()),
        ] {
            assert_eq!(told(&RUN.replace(so, said)), Err(format!("line {line}: {want}")));
        }
        // The thread is at its last point: the replay refuses the step.
        assert_eq!(told(&RUN.replace("5. t:", "5. u:")), Ok(None));
    }
}
