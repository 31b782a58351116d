//! The manual's table from C11 and Rust atomics to instructions.

use crate::blocks::manual;
use outline::text::parse_source::parse;

/// The head of the table.
const HEAD: &str = "| C11 | Rust | Instruction | Operation |\n|---|---|---|---|\n";

/// The rows of the table: the text of the instruction, the first one of its cell, and the number of the operation.
fn rows() -> Vec<(String, u8)> {
    let text = manual();
    let (_, table) = text.split_once(HEAD).expect("the table");
    let row = |line: &str| {
        let cells: Vec<&str> = line.trim_matches('|').split('|').map(str::trim).collect();
        assert_eq!(cells.len(), 4, "{line}");
        let instruction = cells[2].split('`').nth(1).expect("an instruction in backticks");
        (instruction.to_string(), cells[3].parse().expect("the number of an operation"))
    };
    table.lines().take_while(|line| line.starts_with('|')).map(row).collect()
}

/// The operation of an instruction that is read from its text, as an image has it: n is its own point, v a value.
fn operation(instruction: &str) -> u8 {
    let instruction = instruction.replace(" n", " 0").replace(" v", " 1");
    let text = format!("word x = 0\nthread t\n registers r\n {{ true }} {instruction} {{ true }}");
    let source = parse(&text).unwrap_or_else(|e| panic!("{instruction}: {e}"));
    match &source.program().threads[..] {
        [thread] if thread.len() == 1 => thread[0].fields(&[1]).first.operation,
        _ => panic!("{instruction}: one thread with one instruction"),
    }
}

#[test]
fn each_line_of_code_is_the_operation_beside_it() {
    let rows = rows();
    for (instruction, number) in &rows {
        assert_eq!(operation(instruction), *number, "{instruction}");
    }
    let mut operations: Vec<u8> = rows.into_iter().map(|(_, number)| number).collect();
    operations.sort_unstable();
    operations.dedup();
    assert_eq!(operations, (0..=8).collect::<Vec<u8>>(), "pairs are no lines of code");
}
