//! Writes random litmus tests of C11, the same on every machine: `litmus-random NUMBER FOLDER`.

use outline::fuzz::dice::Dice;
use std::path::Path;
use std::process::ExitCode;

const WORDS: [&str; 3] = ["x", "y", "z"];

fn main() -> ExitCode {
    let words: Vec<String> = std::env::args().skip(1).collect();
    let number = words.first().and_then(|word| word.parse::<u64>().ok());
    let (Some(number), Some(folder)) = (number, words.get(1)) else {
        eprintln!("usage: litmus-random NUMBER FOLDER");
        return ExitCode::from(2);
    };
    for seed in 1..=number {
        let name = format!("random-{seed:05}");
        let file = Path::new(folder).join(format!("{name}.litmus"));
        if let Err(e) = std::fs::write(&file, test(&name, &mut Dice::of(seed))) {
            eprintln!("{}: {e}", file.display());
            return ExitCode::from(2);
        }
    }
    ExitCode::SUCCESS
}

/// Two or three threads of up to three accesses; all registers and words are told.
fn test(name: &str, dice: &mut Dice) -> String {
    let mut text = format!("C {name}\n\n{{ [x]=0; [y]=0; [z]=0; }}\n");
    let mut told: Vec<String> = WORDS.iter().map(|word| format!("{word};")).collect();
    for thread in 0..2 + dice.below(2) {
        let accesses: Vec<String> =
            (0..1 + dice.below(3)).map(|n| access(thread, n, dice, &mut told)).collect();
        let body: String = accesses.iter().map(|one| format!("  {one}\n")).collect();
        text +=
            &format!("\nP{thread} (atomic_int* x, atomic_int* y, atomic_int* z) {{\n{body}}}\n");
    }
    text + &format!("\nlocations [{}]\nexists (true)\n", told.join(" "))
}

fn access(thread: usize, number: usize, dice: &mut Dice, told: &mut Vec<String>) -> String {
    let word = dice.pick(&WORDS);
    let (value, strong) = (1 + dice.below(2), dice.below(2) == 0);
    let kind = dice.below(10);
    if kind < 5 {
        let order = if strong { "release" } else { "relaxed" };
        return format!("atomic_store_explicit({word}, {value}, memory_order_{order});");
    }
    told.push(format!("{thread}:r{number};"));
    let order = if strong { "acquire" } else { "relaxed" };
    match kind {
        5..=7 => format!("int r{number} = atomic_load_explicit({word}, memory_order_{order});"),
        8 => format!(
            "int r{number} = atomic_exchange_explicit({word}, {value}, memory_order_acq_rel);"
        ),
        _ => format!(
            "int r{number} = atomic_fetch_add_explicit({word}, {value}, memory_order_acq_rel);"
        ),
    }
}
