//! How far runs were looked at, in words.

use crate::text::counted;
use reference::explore::{Bounds, Cut, ROOM};

/// The bounds that kept some state from being looked at, each by its name and, for a message, with its value.
pub fn cut_by(cut: &Cut, bounds: &Bounds) -> Vec<(&'static str, String)> {
    let asked = [
        (cut.steps, "steps", bounds.steps),
        (cut.writes, "writes", bounds.writes),
        (cut.starts, "starts", bounds.starts),
        (cut.states, "states", bounds.states),
    ];
    let asked = asked.into_iter().filter(|(cut, ..)| *cut);
    let asked = asked.map(|(_, name, value)| (name, format!("--{name} {value}")));
    let room = ("room", format!("the room for states ({} MiB)", ROOM >> 20));
    asked.chain(cut.room.then_some(room)).collect()
}

/// So many states, which are all.
pub fn all(states: usize) -> String {
    match states {
        1 => "the only state".into(),
        _ => format!("all {states} states"),
    }
}

/// So many states, and that they are not all.
pub fn not_all(states: usize, cut: &Cut, bounds: &Bounds) -> String {
    let by: Vec<String> = cut_by(cut, bounds).into_iter().map(|(_, told)| told).collect();
    format!("{}, not all there are: cut by {}", counted(states, "state"), by.join(", "))
}

#[cfg(test)]
mod tests {
    use super::*;

    const BOUNDS: Bounds = Bounds { steps: 12, writes: 6, starts: 64, states: 30_000 };

    #[test]
    fn bounds_that_cut_are_named_with_their_values() {
        let cut = Cut { writes: true, states: true, ..Cut::default() };
        let want = "350 states, not all there are: cut by --writes 6, --states 30000";
        assert_eq!(not_all(350, &cut, &BOUNDS), want);
        let room = Cut { room: true, ..Cut::default() };
        let want = "1 state, not all there are: cut by the room for states (512 MiB)";
        assert_eq!(not_all(1, &room, &BOUNDS), want);
    }
}
