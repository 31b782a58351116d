//! The explorer's truth by maximal chains against the scope page's truth by all prospects.
use reference::explore::truth::sees;
use reference::formula::parse::Counts;
use reference::formula::Interval;
use reference::image::Header;
use reference::machine::{State, View, Write};
use sets::generate::{random::Random, vocabulary::Vocabulary};

/// Two words with two writes each; the second write of word 2 is releasing and
/// its stored view names the second write of word 1.
fn two_by_two() -> State {
    let write = |value, releasing, stored: [u8; 2]| Write {
        value,
        releasing,
        covered: false,
        stored: View::default().moved(1, stored[0]).moved(2, stored[1]),
    };
    State {
        range: 8,
        rows: vec![
            vec![write(0, false, [0, 0]), write(5, false, [1, 0])],
            vec![write(0, false, [0, 0]), write(0, true, [1, 1])],
        ],
        views: vec![View::default()],
        registers: Vec::new(),
        points: vec![0],
    }
}

/// Whether a list of views satisfies an interval, as the scope page says it.
fn satisfies(state: &State, interval: &Interval, list: &[View]) -> bool {
    match interval {
        Interval::All(test) => list.iter().all(|&view| test.evaluate(&state.seen_at(view))),
        Interval::One(word) => list.windows(2).all(|pair| pair[0].at(*word) == pair[1].at(*word)),
        Interval::Chop(a, b) => (0..=list.len())
            .any(|cut| satisfies(state, a, &list[..cut]) && satisfies(state, b, &list[cut..])),
        Interval::Both(a, b) => satisfies(state, a, list) && satisfies(state, b, list),
        Interval::Either(a, b) => satisfies(state, a, list) || satisfies(state, b, list),
    }
}

/// Whether the list and all its continuations up to a length satisfy the interval.
fn all_prospects(state: &State, interval: &Interval, list: &mut Vec<View>, longest: usize) -> bool {
    let from = list.last().copied().unwrap_or(state.view(1));
    if !list.is_empty() && !satisfies(state, interval, list) {
        return false;
    }
    if list.len() == longest {
        return true;
    }
    let views = (0..2).flat_map(|a| (0..2).map(move |b| View::default().moved(1, a).moved(2, b)));
    views.filter(|view| !from.later_somewhere(view)).all(|view| {
        list.push(view);
        let satisfied = all_prospects(state, interval, list, longest);
        list.pop();
        satisfied
    })
}

#[test]
fn maximal_chains_decide_all_prospects() {
    let counts = Counts { threads: 1, words: 2, registers: 0, range: 8 };
    let vocabulary = Vocabulary::of(&Header::cleared(counts, vec![0; 2], Vec::new()));
    let random = &mut Random::new(7);
    let mut seen = 0;
    for _ in 0..4000 {
        let mut state = two_by_two();
        for write in state.rows.iter_mut().flatten() {
            write.value = random.between(0, 1);
            write.covered = random.chance(40);
        }
        let interval = vocabulary.interval(random, 3);
        let truth = all_prospects(&state, &interval, &mut Vec::new(), 4);
        assert_eq!(sees(&state, 1, &interval), truth, "{interval} in {state:?}");
        seen += usize::from(truth);
    }
    assert!((500..3500).contains(&seen), "{seen} of 4000 are true");
}
