//! The manual's table of instructions and their rules is what the independent checker allows.

use crate::blocks::{manual, of_kind};
use outline::text::parse_source::parse;
use reference::checker::rules::follows;

/// The manual's instructions: row of its table, thread, point, what it writes, its register. A pair is read as its
/// first half.
const INSTRUCTIONS: [(&str, &str, u8, &str, &str); 10] = [
    ("acquiring load", "a", 0, "0", "r"),
    ("load", "b", 0, "0", "q"),
    ("releasing store", "a", 1, "1", "r"),
    ("store", "b", 1, "1", "q"),
    ("swap", "a", 2, "2", "r"),
    ("assignment", "a", 3, "0", "r"),
    ("exchange", "c", 0, "p + 1", "s"),
    ("fetch-add", "c", 1, "s + p", "s"),
    ("releasing store", "d", 0, "m", "k"),
    ("swap", "d", 1, "3", "m"),
];

/// For each rule that asks for operations a triple of it, behind it its premise: T acts, F is written, R is set.
const SHAPES: [(u8, &str, &str); 16] = [
    (1, "{ o = 1 } to { o = 1 }", ""),
    (2, "{ R + 1 = 2 } to { R = 2 }", ""),
    (3, "{ T sees [x = 1] } to { R = 1 }", ""),
    (4, "{ T sees [x = 1] ; one y } to { R = 1 or T sees one y }", "{ T sees one y } to { T sees one y }"),
    (5, "{ T sees [unsync x] ; one y } to { T sees one y }", "{ T sees one y } to { T sees one y }"),
    (6, "{ T sees one x } to { T sees one x = F }", ""),
    (7, "{ T sees one x and b sees one y } to { b sees one y ; one x = F }", ""),
    (8, "{ T sees one x and b sees one x and T sees one y } to { b sees one x ; [unsync x] ; one y }", ""),
    (9, "{ b sees [x < 3] and b sees [F < 3] } to { b sees [x < 3] }", ""),
    (10, "{ T sees [cov x] ; one y } to { T sees one y }", "{ T sees one y } to { T sees one y }"),
    (11, "{ T sees [cov x] ; one x } to { T sees one x = F }", ""),
    (12, "{ T sees [cov x] ; one x and b sees [cov x] ; one x } to { b sees [cov x] ; one x = F }", ""),
    (13, "{ T sees [cov x] ; one x and b sees [cov x] ; one x and T sees one y }
        to { b sees [cov x] ; [unsync x] ; one y }", ""),
    (47, "{ T sees [x = 1] } to { R = 1 }", ""),
    (48, "{ T sees [cov x] ; one x } to { T sees one x = F }", ""),
    (49, "{ T sees [cov x] ; one x and b sees [cov x] ; one x } to { b sees [cov x] ; one x = F }", ""),
];

/// The rules that the checker lets an instruction use.
fn allowed((_, thread, point, new, register): (&str, &str, u8, &str, &str)) -> Vec<u8> {
    let program = &of_kind("program")[0].text;
    let filled = |shape: &str| {
        let shape =
            shape.replace("T ", &format!("{thread} ")).replace("R ", &format!("{register} "));
        format!(
            "step {thread} {point}: {}\n",
            shape.replace("= F", &format!("= {new}")).replace("[F", &format!("[{new}"))
        )
    };
    let serves = |&&(rule, shape, premise): &&(u8, &str, &str)| {
        let mut text = format!("{program}\nproof\n{}", filled(shape));
        if !premise.is_empty() {
            text += &filled(premise);
        }
        let source = parse(&text).unwrap_or_else(|e| panic!("{text}: {e}"));
        let (line, premises) = source.hints.split_first().expect("a line");
        let premises: Vec<_> = premises.iter().map(|hint| &hint.statement).collect();
        follows(&source.program(), rule, &line.statement, &premises)
    };
    SHAPES.iter().filter(serves).map(|(rule, ..)| *rule).collect()
}

/// The rules in a row of the table: those before a semicolon, and the one behind it for the stronger kind.
fn told(row: &str, stronger: bool) -> Vec<u8> {
    let text = manual();
    let start = format!("| {row} | ");
    let line = text.lines().find_map(|l| l.strip_prefix(&start)).expect("a row of the table");
    let (plain, more) = line.split_once(';').unwrap_or((line, ""));
    let mut numbers = String::from(plain);
    if stronger {
        numbers = format!("{plain},{}", more.split_once(':').expect("a rule of its own").1);
    }
    let numbers = numbers.replace('|', "");
    let mut rules: Vec<u8> =
        numbers.split(',').map(|n| n.trim().parse().expect("a rule")).collect();
    rules.sort_unstable();
    rules
}

#[test]
fn the_table_of_instructions_is_the_checkers() {
    for instruction in INSTRUCTIONS {
        let wanted = match instruction.0 {
            "acquiring load" => told("load", true),
            "releasing store" => told("store", true),
            "exchange" | "fetch-add" => told("exchange, fetch-add", false),
            "assignment" => told("assignment, two assignments", false),
            row => told(row, false),
        };
        assert_eq!(allowed(instruction), wanted, "{}", instruction.0);
    }
}

/// Whether a line for this step of the manual's program follows by the rule from the premise, if there is one.
fn fits(rule: u8, line: &str, premise: Option<&str>) -> bool {
    let steps: Vec<&str> = [line].into_iter().chain(premise).collect();
    let text = format!("{}\nproof\n{}", of_kind("program")[0].text, steps.join("\n"));
    let source = parse(&text).unwrap_or_else(|e| panic!("{text}: {e}"));
    let statements: Vec<_> = source.hints.iter().map(|hint| &hint.statement).collect();
    follows(&source.program(), rule, statements[0], &statements[1..])
}

#[test]
fn two_assignments_and_pairs_have_a_rule_each() {
    let traded = "step d 2: { m = 2 } to { k = 2 }";
    assert!(fits(2, traded, None) && !fits(50, traded, Some(traded)));
    let (pair, half) = ("step d 1: { o = 1 } to { m = 0 }", "step d 1: { o = 1 } to { 0 = 0 }");
    assert!(fits(50, pair, Some(half)) && !fits(2, pair, None) && !fits(2, half, None));
}
