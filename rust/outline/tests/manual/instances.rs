//! Each rule has an instance that fits and one that nearly does, judged by the independent checker.

use crate::blocks::{manual, of_kind, Block};
use outline::build::build;
use outline::refuted::refutation;
use outline::text::parse_source::parse;
use outline::text::source::{Hint, Source};
use reference::assemble::Plan;
use reference::checker::obligations::duties;
use reference::checker::rules::{justified_lines, rules};
use reference::checker::{check, decode};
use reference::image::{Program, Statement};
use reference::proof::Proof;
use std::rc::Rc;

/// So many states are tried for each statement.
const TRIES: usize = 40_000;

/// Whether a state is found in which the statement is false.
fn is_refuted(program: &Program, statement: &Statement) -> bool {
    refutation(program, statement, TRIES).is_some()
}

/// The program for whose instructions the triples are.
fn program_text() -> String {
    let found = of_kind("program");
    assert_eq!(found.len(), 1, "one program for all instances");
    found[0].text.clone()
}

/// How deep each line of a tree stands: two spaces a step. Other lines go on with the one before.
fn depths(block: &Block) -> Vec<usize> {
    let begins = |line: &&str| {
        let first = line.split_whitespace().next();
        matches!(first, Some("step" | "fact" | "part"))
    };
    let depth = |line: &str| (line.len() - line.trim_start().len()) / 2;
    block.text.lines().filter(begins).map(depth).collect()
}

fn source(block: &Block) -> Source {
    let text = format!("{}\nproof\n{}", program_text(), block.text);
    parse(&text).unwrap_or_else(|e| panic!("block at line {}: {e}", block.line))
}

/// The line at `at` with the deeper ones below it as its premises.
fn tree(lines: &[(usize, Hint)], at: &mut usize) -> Rc<Proof> {
    let (depth, hint) = &lines[*at];
    let rule = hint.rule.expect("each line says by which rule");
    *at += 1;
    let mut premises = Vec::new();
    while lines.get(*at).is_some_and(|(below, _)| below > depth) {
        assert_eq!(lines[*at].0, depth + 1, "premises stand two spaces deeper");
        premises.push(tree(lines, at));
    }
    Rc::new(Proof { rule, statement: hint.statement.clone(), premises })
}

/// The proof that a block shows, and the program.
fn proof(block: &Block) -> (Rc<Proof>, Program) {
    let source = source(block);
    let depths = depths(block);
    assert_eq!(depths.len(), source.hints.len(), "block at line {}", block.line);
    let lines: Vec<(usize, Hint)> = depths.into_iter().zip(source.hints.clone()).collect();
    let mut at = 0;
    let root = tree(&lines, &mut at);
    assert_eq!(at, lines.len(), "block at line {} has one last line, the first", block.line);
    assert_eq!(root.rule.to_string(), block.name(), "block at line {}", block.line);
    (root, source.program())
}

/// For each line of the block's proof whether the checker finds it justified, the shown one last.
fn judged(block: &Block) -> Vec<bool> {
    let (root, program) = proof(block);
    let obligations = vec![None; duties(&program.threads).len()];
    let bytes = Plan { spare: vec![root], ..Plan::new(program, obligations) }.bytes();
    let image = decode(&bytes).unwrap_or_else(|_| panic!("block at line {}", block.line));
    assert_eq!(check(&bytes).code, 20, "the image is well formed");
    justified_lines(&image)
}

#[test]
fn instances_that_fit_are_justified() {
    for block in of_kind("fits") {
        assert!(judged(&block).iter().all(|line| *line), "block at line {}", block.line);
        let (root, program) = proof(&block);
        assert!(!is_refuted(&program, &root.statement), "block at line {}", block.line);
    }
}

#[test]
fn instances_that_nearly_fit_are_not() {
    for block in of_kind("nearly") {
        let lines = judged(&block);
        let (last, premises) = lines.split_last().expect("a line");
        assert!(!last, "block at line {} fits", block.line);
        assert!(premises.iter().all(|line| *line), "premises of the block at line {}", block.line);
    }
}

/// Behind the rule a near instance says whether it is false, or true all the same and found by the tool or not.
#[test]
fn near_instances_are_true_or_false_as_they_say() {
    for block in of_kind("nearly") {
        let (root, program) = proof(&block);
        let refuted = is_refuted(&program, &root.statement);
        let found = || {
            let mut alone = source(&block);
            alone.hints.truncate(1);
            alone.hints[0].rule = None;
            build(&alone).is_ok()
        };
        match block.marks.get(2).map(String::as_str) {
            Some("true") => assert!(!refuted && found(), "block at line {}", block.line),
            Some("false") => assert!(refuted, "block at line {}: no state found", block.line),
            Some("unfound") => assert!(!refuted && !found(), "block at line {}", block.line),
            _ => panic!("block at line {} does not say whether it is true", block.line),
        }
    }
}

#[test]
fn every_rule_has_its_heading_and_both_instances() {
    let text = manual();
    let (fitting, near) = (of_kind("fits"), of_kind("nearly"));
    for rule in rules() {
        let number = rule.to_string();
        let has = |all: &[Block]| all.iter().any(|block| block.name() == number);
        assert!(has(&fitting), "rule {rule} has no instance that fits");
        assert!(has(&near), "rule {rule} has no instance that nearly fits");
        let heading = format!("\n#### {rule}. ");
        assert!(text.contains(&heading), "rule {rule} has no heading");
    }
    let known: Vec<String> = rules().map(|rule| rule.to_string()).collect();
    for block in fitting.iter().chain(&near) {
        assert!(known.iter().any(|rule| rule == block.name()), "line {}", block.line);
    }
}
