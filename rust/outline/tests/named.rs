//! What the writer names is used first and chains; the search ends after a number of tries.

use outline::build::{build, build_within, Built, Goal};
use outline::search::prover::Prover;
use outline::text::parse_source::parse;
use outline::text::source::{Hint, Source};
use reference::checker::check;
use reference::checker::obligations::{duties, Duty};
use reference::formula::{Assertion, Test, Value};
use reference::image::Statement;
use std::path::PathBuf;
use std::rc::Rc;

/// An outline by its path from this package.
fn outline(path: &str) -> Source {
    let path = PathBuf::from(env!("CARGO_MANIFEST_DIR")).join(path);
    parse(&std::fs::read_to_string(path).expect("readable")).expect("well formed")
}

/// An example without what it names.
fn example(name: &str) -> Source {
    Source { hints: Vec::new(), ..outline(&format!("../../examples/{name}.outline")) }
}

/// Not more than a twentieth above what is made without named steps.
fn hardly_more(tries: u64, alone: u64) -> bool {
    tries <= alone + alone / 20
}

fn named(statement: Statement) -> Hint {
    Hint { statement, rule: None, middle: None, line: 1.into() }
}

/// For each class 4 obligation the step that keeps the assertion and leads the actor on.
fn steps_about_two_threads(source: &Source) -> Vec<Hint> {
    let program = source.program();
    let mut hints = Vec::new();
    for duty in duties(&program.threads) {
        let (Duty::Kept { actor, action, .. }, Statement::Triple { thread, point, left, right }) =
            (duty, duty.wanted(&program))
        else {
            continue;
        };
        let next = program.assertion(actor, action + 1).clone();
        let right = Rc::new(Assertion::both(right, next));
        hints.push(named(Statement::Triple { thread, point, left, right }));
    }
    hints
}

fn found(text: &str) -> Built {
    build(&parse(text).expect("well formed")).unwrap_or_else(|e| panic!("{e}"))
}

#[test]
fn many_named_steps_do_not_slow_the_search() {
    // In `peterson-entry` three points in a row assert the same, so that obligations are equal.
    let examples =
        ["store-buffering", "coherence", "parity", "ticket-lock", "peterson", "peterson-entry"];
    for name in examples {
        let mut source = example(name);
        let alone = build(&source).expect("no hints");
        source.hints = steps_about_two_threads(&source);
        source.hints.truncate(16);
        let with = build(&source).expect("each step is found");
        assert!(source.hints.len() >= 12 && with.open.is_empty(), "{name}");
        assert!(hardly_more(with.tries, alone.tries), "{name}: {} for {}", with.tries, alone.tries);
        assert_eq!(check(&with.image.bytes()).code, 0, "{name}");
    }
}

/// The slow shapes that were told of, with the most tries that they may take, and that one of their steps may take.
#[test]
fn outlines_with_steps_about_two_threads_are_built_in_so_many_tries() {
    let slow =
        [("ticket-lock-16-steps", 16, 118_000, 30_000), ("peterson-4-steps", 4, 52_000, 10_000)];
    for (name, steps, most, most_at_once) in slow {
        let source = outline(&format!("tests/outlines/{name}.outline"));
        assert_eq!(source.hints.len(), steps, "{name}");
        let built = build(&source).unwrap_or_else(|e| panic!("{name}: {e}"));
        assert!(built.open.is_empty() && check(&built.image.bytes()).code == 0, "{name}");
        let (tries, at_once) = (built.tries, built.most_tries);
        assert!(tries <= most && at_once <= most_at_once, "{name}: {tries}, {at_once} at once");
        let alone = build(&Source { hints: Vec::new(), ..source }).expect("no hints");
        assert!(hardly_more(tries, alone.tries), "{name}: {tries} for {}", alone.tries);
    }
}

#[test]
fn obligations_that_are_named_are_not_searched_twice() {
    for name in ["store-buffering", "ticket-lock"] {
        let mut source = example(name);
        let alone = build(&source).expect("no hints");
        let program = source.program();
        let triple = |s: &Statement| matches!(s, Statement::Triple { .. });
        let all = duties(&program.threads).into_iter().map(|d| d.wanted(&program)).filter(triple);
        source.hints = all.map(named).collect();
        let with = build(&source).expect("each step is found");
        assert!(
            with.open.is_empty() && hardly_more(with.tries, alone.tries),
            "{name}: {}",
            with.tries
        );
    }
}

/// A step by its rule is a single line, and it fits the obligation as it stands.
#[test]
fn a_step_by_its_rule_makes_the_search_shorter() {
    let path =
        PathBuf::from(env!("CARGO_MANIFEST_DIR")).join("../../examples/message-passing.outline");
    let text = std::fs::read_to_string(path).expect("readable");
    let step = "step writer 1: { writer sees one flag and reader sees one flag = 0 and writer sees [data = 1] } \
        to { Coming } by 8\n";
    let (alone, with) = (found(&text), found(&format!("{text}proof {step}")));
    assert!(with.open.is_empty() && with.tries + 100 < alone.tries, "{}", with.tries);
}

/// Facts that nothing needs are no premises: rule 20 has four at most.
#[test]
fn facts_that_are_not_needed_do_no_harm() {
    let mut source = example("ticket-lock");
    let alone = build(&source).expect("no hints");
    let program = source.program();
    let pairs =
        program.outline[0].iter().flat_map(|p| program.outline[1].iter().map(move |q| (p, q)));
    let fact = |(p, q): (&Rc<Assertion>, &Rc<Assertion>)| {
        let left = Rc::new(Assertion::both(p.clone(), q.clone()));
        named(Statement::Implication { left, right: q.clone() })
    };
    source.hints = pairs.map(fact).take(16).collect();
    let with = build(&source).expect("each fact is found");
    assert!(with.open.is_empty() && with.tries < 2 * alone.tries, "{}", with.tries);
    assert_eq!(with.image.lines.len(), alone.image.lines.len());
    assert_eq!(check(&with.image.bytes()).code, 0);
}

#[test]
fn the_search_ends_after_so_many_tries() {
    let source = example("message-passing");
    let cut = build_within(&source, 50).expect("no hints");
    assert!(!cut.open.is_empty() && cut.most_tries <= 50);
    let told: Vec<&String> = cut.open.iter().flat_map(|o| &o.tried).collect();
    assert!(told.iter().any(|t| t.starts_with("given up     after 50 tries")), "{told:?}");
    let again = build_within(&source, 50).expect("no hints");
    assert_eq!((cut.image, cut.tries), (again.image, again.tries));
}

const TWO_WORDS: &str = "word x = 0\nword y = 0\nthread a registers r { true } x := 1 { true }\n\
    thread b { true }\nproof\n";

#[test]
fn halves_that_are_named_make_the_whole() {
    // No rule leads to a test of two words that the store changes one of; of each word alone rules 6 and 1 do.
    let whole = "step a 0: { a sees one x and a sees [y = 2] } to { a sees [x + y = 3] }\n";
    let halves = "step a 0: { a sees one x } to { a sees [x = 1] }\n\
        step a 0: { a sees [y = 2] } to { a sees [y = 2] }\n";
    let alone = parse(&format!("{TWO_WORDS}{whole}")).expect("well formed");
    assert!(build(&alone).expect_err("beyond the search").text.contains("not found"));
    assert!(found(&format!("{TWO_WORDS}{halves}{whole}")).open.is_empty());
    let facts = "fact { r = 1 } to { r = 1 or r = 2 }\nfact { r = 1 or r = 2 } to { r < 3 }\n\
        fact { r = 1 and b sees one y } to { r < 3 and b sees one y }\n";
    assert!(found(&format!("{TWO_WORDS}{facts}")).open.is_empty());
    let parts = "part [x = 1] in [x = 1] ; [x = 2]\npart [x = 1] ; [x = 2] in [x < 3]\n\
        part one x = 1 in [x < 3] by 31 through [x = 1]\n";
    assert!(found(&format!("{TWO_WORDS}{parts}")).open.is_empty());
}

/// A fact that rests on another one takes a few tries, where alone it takes as many as the first.
#[test]
fn facts_that_are_named_are_used_first() {
    let source = example("store-buffering");
    let program = source.program();
    let last = |thread: u8| program.assertion(thread, 3).clone();
    let ends = Rc::new(Assertion::both(last(1), last(2)));
    let says = |right: Assertion| {
        named(Statement::Implication { left: ends.clone(), right: right.into() })
    };
    let read = |register: u8| Test::equal(Value::Register(register), Value::Constant(1));
    let first = says(Assertion::either(Assertion::holds(read(2)), Assertion::holds(read(4))));
    let second = says(Assertion::holds(Test::or(read(2), read(4))));
    let tries = |hints: &[&Hint]| {
        let mut prover = Prover::new(&program, source.names.clone());
        let mut before = 0;
        for hint in hints {
            before = prover.budget.made().0;
            let line = prover.hinted(hint).expect("found");
            prover.forget_failures(&hint.statement);
            prover.facts.push(line);
        }
        prover.budget.made().0 - before
    };
    assert!(tries(&[&second]) > 100);
    assert!(tries(&[&first, &second]) < 10);
}

#[test]
fn the_middle_of_rule_16_is_named() {
    let step = "step a 0: { a sees one x and b sees one y } to { a sees [x = 1] } \
        by 16 through { a sees one x } to { a sees one x = 1 }\n";
    assert!(found(&format!("{TWO_WORDS}{step}")).open.is_empty());
    let wrong = step.replace("through { a sees one x }", "through { a sees one y }");
    let source = parse(&format!("{TWO_WORDS}{wrong}")).expect("well formed");
    assert!(build(&source).expect_err("not so").text.contains("not found by rule 16"));
    let misplaced = step.replace("by 16", "by 6");
    let mistake = parse(&format!("{TWO_WORDS}{misplaced}")).expect_err("only 16 and 31");
    assert_eq!(mistake.text, "only `by 16` and `by 31` have formulas in the middle");
}

#[test]
fn the_swapped_word_may_stand_in_the_tail() {
    let text = "word lock = 0\nword count = 0\nthread a\n\
        { a sees [unsync lock] ; (one lock = 0 & one count = 1) } swap lock := 1 { a sees one count }\n";
    let built = found(text);
    // The start does not give the first point; the step is found all the same.
    assert_eq!(built.open.len(), 1);
    assert_eq!(built.open[0].goal, Goal::Duty(Duty::Start { thread: 1 }));
}

#[test]
fn formulas_of_instructions_have_their_limits() {
    let sum = |terms: usize| {
        let sum = ["1"].repeat(terms).join(" + ");
        parse(&format!("word data = 0\nthread a {{ true }}\n data := {sum}\n {{ true }}"))
    };
    assert_eq!(check(&build(&sum(16).expect("fits")).expect("no hints").image.bytes()).code, 0);
    let mistake = sum(17).expect_err("too deep");
    let words = "formula of 50 bytes and nesting 17; 255 bytes and nesting 16 are the most";
    assert_eq!((mistake.line.line, mistake.text.as_str()), (3, words));
}

/// At a pair's point a step is about the whole pair, or by its rule about the first half.
#[test]
fn steps_are_named_at_pairs() {
    let program = "word x = 0\nthread a registers r\n  { r = 0 } x := 1 | r := 1 { r = 1 }\nthread b { r < 2 }\n";
    let with = |step: &str| parse(&format!("{program}proof\n{step}")).expect("well formed");
    let right = [
        "step a 0: { r = 0 } to { r = 1 }",
        "step a 0: { r = 0 } to { r = 1 } by 50",
        "step a 0: { r = 0 } to { r = 0 } by 1",
        "step a 0: { r = 0 } to { 1 = 1 } by 16 through { r = 0 } to { r = 0 }",
    ];
    for step in right {
        let built = build(&with(step)).unwrap_or_else(|e| panic!("{step}: {e}"));
        assert_eq!(check(&built.image.bytes()).code, 0, "{step}");
    }
    for step in ["step a 0: { r = 0 } to { r = 0 }", "step a 0: { r = 0 } to { r = 1 } by 1"] {
        assert!(build(&with(step)).is_err(), "{step}");
    }
}

const VALUE_AND_DATA: &str = "word data = 0\nword flag = 0
let Coming = reader sees [flag = 0] ; ([flag = 2] & ([unsync flag] ; [data = 1]))
thread writer
  { writer sees one data and writer sees one flag and reader sees one flag = 0 } data := 1
  { writer sees [data = 1] and writer sees one flag and reader sees one flag = 0 } flag :=rel 2
  { true }
thread reader registers a, b
  { Coming } a <-acq flag
  { a = 0 or a = 2 and reader sees [data = 1] } b <- data
  { a = 0 or a = 2 and b = 1 }
";

/// Rule 7 says what the flag is, rule 8 what comes with it: joined they say both of the same views.
#[test]
fn the_value_and_what_is_handed_over_are_joined() {
    let built = found(VALUE_AND_DATA);
    assert!(built.open.is_empty());
    assert_eq!(check(&built.image.bytes()).code, 0);
    let relaxed = found(&VALUE_AND_DATA.replace(":=rel", ":="));
    let kept = Duty::Kept { thread: 2, point: 0, actor: 1, action: 1 };
    assert_eq!(relaxed.open.iter().map(|open| open.goal).collect::<Vec<_>>(), [Goal::Duty(kept)]);
}
