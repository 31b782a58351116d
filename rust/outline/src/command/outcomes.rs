//! `explore --outcomes`: every final state of registers and of the words' last values.

use crate::command::json;
use crate::text::counted;
use crate::text::print::Names;
use crate::text::reach::{all, not_all};
use crate::text::run;
use reference::explore::{Final, Outcomes};
use reference::image::Program;

/// The final states as lines, each with its run where that is asked for.
pub fn told(program: &Program, names: &Names, found: &Outcomes, runs: bool) -> Vec<String> {
    let Outcomes { finals, states, bounds, cut } = found;
    let number = counted(finals.len(), "final state");
    let mut lines = vec![match cut.any() {
        true => format!("{number} at least, in {}", not_all(*states, cut, bounds)),
        false => format!("{number}, in {}", all(*states)),
    }];
    for end in finals {
        lines.push(values(names, end));
        if runs {
            lines.extend(run::lines(program, names, &end.run));
        }
    }
    lines
}

/// What registers and words hold: `a = 1, b = 0, x = 1`.
pub fn values(names: &Names, end: &Final) -> String {
    let registers = names.registers.iter().zip(&end.registers);
    let all = registers.chain(names.words.iter().zip(&end.words));
    all.map(|(name, value)| format!("{name} = {value}")).collect::<Vec<String>>().join(", ")
}

/// The final states as JSON, each with its run where that is asked for.
pub fn as_json(program: &Program, names: &Names, found: &Outcomes, runs: bool) -> String {
    json::list(found.finals.iter().map(|end| {
        let named = |(name, value): (&String, &u8)| {
            json::object(&[("name", json::text(name)), ("value", value.to_string())])
        };
        let lines = runs.then(|| json::texts(&run::lines(program, names, &end.run)));
        json::object(&[
            ("registers", json::list(names.registers.iter().zip(&end.registers).map(named))),
            ("words", json::list(names.words.iter().zip(&end.words).map(named))),
            ("run", lines.unwrap_or("null".into())),
        ])
    }))
}
