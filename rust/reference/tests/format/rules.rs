//! Rules: form, premises, operations, shape, and what they ask.

use crate::instances::{rows, Row};
use crate::letters::{every_operation, Choice, Named, Tests, REGISTER};
use reference::checker::rules::{self, Form, MOST_PREMISES};
use reference::image::{Program, Statement};

/// Every operation but the branch.
fn operations() -> impl Iterator<Item = u8> {
    (0..=12).filter(|&operation| operation != 6)
}

/// The operations at which a row's lines are tried: any one serves where a line is about no instruction.
fn tried(row: &Row) -> Vec<u8> {
    match row.form {
        Form::Triple => operations().collect(),
        _ => vec![0],
    }
}

fn serves(row: &Row, operation: u8) -> bool {
    row.form != Form::Triple || row.operations.contains(&operation)
}

/// The choice with which a line fits, if the rule serves the operation.
fn fitting<'a>(row: &Row, program: &'a Program, barred: &'a [(char, Named)]) -> Choice<'a> {
    let tests = row.tests();
    // A mark or a word that the page does not bind is not as the rule wants it.
    let bound = row.binds();
    Choice { program, operation: 0, observer: 2, barred, slip: None, tests, bound }
}

/// Calls with each row, its program, what is barred there, and a choice for each operation and each observer.
fn for_each(mut look: impl FnMut(&Row, &Program, &Choice)) {
    let program = every_operation();
    for row in rows() {
        let barred = row.barred();
        for operation in tried(&row) {
            for observer in [1, 2] {
                let choice = Choice { operation, observer, ..fitting(&row, &program, &barred) };
                look(&row, &program, &choice);
            }
        }
    }
}

#[test]
fn every_rule_is_listed_with_its_form() {
    let listed: Vec<(u8, Form)> = rows().iter().map(|row| (row.rule, row.form)).collect();
    let known = rules::rules().map(|rule| (rule, Form::of_rule(rule).expect("a form")));
    assert_eq!(listed, known.collect::<Vec<_>>());
}

#[test]
fn each_rule_fits_at_its_operations_and_at_no_other() {
    for_each(|row, program, choice| {
        let fits = row.fits(program, choice, row.premise_counts[0]);
        assert_eq!(fits, serves(row, choice.operation), "rule {}, {choice}", row.rule);
    });
}

#[test]
fn each_rule_takes_its_premises_and_no_other_number() {
    for_each(|row, program, choice| {
        for count in 0..=MOST_PREMISES {
            let fits = row.fits(program, choice, count);
            let taken = serves(row, choice.operation) && row.premise_counts.contains(&count);
            assert_eq!(fits, taken, "rule {} with {count} premises, {choice}", row.rule);
        }
    });
}

#[test]
fn premises_have_their_order_and_their_form() {
    for_each(|row, program, choice| {
        if !serves(row, choice.operation) {
            return;
        }
        let line = row.line(choice);
        let premises = row.premises(choice, *row.premise_counts.last().expect("a count"));
        let fits = |premises: &[Statement]| {
            rules::follows(program, row.rule, &line, &premises.iter().collect::<Vec<_>>())
        };
        let turned: Vec<Statement> = premises.iter().rev().cloned().collect();
        assert_eq!(fits(&turned), turned == premises, "rule {}, {choice}", row.rule);
        for place in 0..premises.len() {
            let mut near = premises.clone();
            near[place] = near_by(&near[place], choice.operation);
            assert!(!fits(&near), "rule {}, premise {place}, {choice}", row.rule);
        }
    });
}

/// A triple at another point, an implication as a triple of this point, an inclusion with its sides exchanged.
fn near_by(statement: &Statement, operation: u8) -> Statement {
    match statement.clone() {
        Statement::Triple { thread, left, right, .. } => {
            Statement::Triple { thread, point: (operation + 1) % 6, left, right }
        }
        Statement::Implication { left, right } => {
            Statement::Triple { thread: 1, point: operation, left, right }
        }
        Statement::Inclusion { left, right } => Statement::Inclusion { left: right, right: left },
    }
}

/// Whether a slip matters at the operation: only a result register and, in rule 1, a word that is written are asked for.
fn matters(row: &Row, operation: u8, named: Named) -> bool {
    let has_result = matches!(operation, 1 | 2 | 7 | 8);
    let writes = !matches!(operation, 1 | 2);
    if REGISTER.contains(&named) {
        has_result
    } else {
        writes || !row.asks.iter().any(|asked| asked.ends_with("if written"))
    }
}

#[test]
fn what_a_rule_bars_is_needed() {
    let mut slips = 0;
    for_each(|row, program, choice| {
        for &slip in choice.barred.iter().filter(|_| serves(row, choice.operation)) {
            // An interval and a test name a register in one way.
            if slip == ('J', Named::RegisterHeld) {
                continue;
            }
            let slipped = Choice { slip: Some(slip), ..*choice };
            let fits = row.fits(program, &slipped, row.premise_counts[0]);
            assert_eq!(
                fits,
                !matters(row, choice.operation, slip.1),
                "rule {}, {slipped}",
                row.rule
            );
            slips += 1;
        }
    });
    assert!(slips > 100, "{slips}");
}

#[test]
fn what_a_rule_binds_is_needed() {
    for_each(|row, program, choice| {
        if !serves(row, choice.operation) {
            return;
        }
        let count = row.premise_counts[0];
        if row.binds() {
            let loose = Choice { bound: false, ..*choice };
            assert!(!row.fits(program, &loose, count), "rule {}, {loose}", row.rule);
        }
        if row.tests() == Tests::Implied {
            let not_implied = Choice { tests: Tests::NotImplied, ..*choice };
            assert!(!row.fits(program, &not_implied, count), "rule {}", row.rule);
        }
    });
}

#[test]
fn a_truth_table_rests_on_its_premises() {
    let program = every_operation();
    let rows = rows();
    let row = rows.iter().find(|row| row.rule == 20).expect("rule 20");
    let loose = Choice { bound: false, ..fitting(row, &program, &[]) };
    for count in 0..=MOST_PREMISES {
        assert_eq!(row.fits(&program, &loose, count), count > 0, "{count} premises");
    }
}
