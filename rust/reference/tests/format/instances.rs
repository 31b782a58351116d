//! Instances of a rule, made from its row of the page.

use crate::letters::{Choice, Named, Tests, FLAGS, REGISTER, WORD};
use crate::page::{number, numbers, spans, table};
use crate::shapes::{assertion, interval};
use reference::checker::rules::{follows, Form};
use reference::image::{Program, Statement};

/// A rule as the page has it.
pub struct Row {
    pub rule: u8,
    pub form: Form,
    pub premise_counts: Vec<usize>,
    pub operations: Vec<u8>,
    from: String,
    to: String,
    /// Left side, word between, right side.
    premises: Vec<(String, String, String)>,
    pub asks: Vec<String>,
}

/// The rules of the page, in order.
pub fn rows() -> Vec<Row> {
    let titles = ["Rule", "Form", "Premises", "Operations", "From", "To", "Premises say", "Asks"];
    table(titles).into_iter().map(row).collect()
}

fn row([rule, form, count, operations, from, to, premises, asks]: [String; 8]) -> Row {
    let shape = |cell: &str| spans(cell).0.concat();
    let row = Row {
        rule: number(&rule) as u8,
        form: form_named(&form),
        premise_counts: numbers(&count).into_iter().map(|count| count as usize).collect(),
        operations: numbers(&operations).into_iter().map(|operation| operation as u8).collect(),
        from: shape(&from),
        to: shape(&to),
        premises: premises_of(&premises),
        asks: asks.split("; ").filter(|asked| !asked.is_empty()).map(String::from).collect(),
    };
    match row.premise_counts[..] {
        [count] => assert_eq!(row.premises.len(), count, "premises of rule {rule}"),
        _ => assert_eq!(premises, ANY, "premises of rule {rule}"),
    }
    assert_eq!(row.form == Form::Triple, !row.operations.is_empty(), "operations of rule {rule}");
    row
}

fn form_named(name: &str) -> Form {
    match name {
        "triple" => Form::Triple,
        "implication" => Form::Implication,
        "inclusion" => Form::Inclusion,
        _ => panic!("no form {name}"),
    }
}

/// What a rule says that takes several numbers of premises.
const ANY: &str = "any implications";

/// Two shapes with a word between them for each premise; any implications are the line itself.
fn premises_of(cell: &str) -> Vec<(String, String, String)> {
    if cell == ANY {
        return vec![("P".into(), "gives".into(), "Q".into())];
    }
    let (codes, words) = spans(cell);
    assert_eq!(codes.len() % 2, 0, "{cell}");
    let places = (0..codes.len()).step_by(2);
    places.map(|at| (codes[at].into(), words[at + 1].into(), codes[at + 1].into())).collect()
}

impl Row {
    /// The letters that something is not to occur in, with it.
    pub fn barred(&self) -> Vec<(char, Named)> {
        self.asks.iter().flat_map(|asked| barred_by(asked)).collect()
    }

    /// How tests are to be chosen for the line to fit.
    pub fn tests(&self) -> Tests {
        match self.asks.iter().any(|asked| asked == "by rows") {
            true => Tests::Implied,
            false => Tests::Distinct,
        }
    }

    /// Whether some letter is bound by words.
    pub fn binds(&self) -> bool {
        self.asks.iter().any(|asked| BINDING.contains(&asked.as_str()))
    }

    fn statement(&self, choice: &Choice, word: &str, from: &str, to: &str) -> Statement {
        match word {
            "to" => Statement::Triple {
                thread: 1,
                point: choice.operation,
                left: assertion(from, choice).into(),
                right: assertion(to, choice).into(),
            },
            "gives" => Statement::Implication {
                left: assertion(from, choice).into(),
                right: assertion(to, choice).into(),
            },
            "in" => Statement::Inclusion {
                left: interval(from, choice).into(),
                right: interval(to, choice).into(),
            },
            _ => panic!("no form `{word}`"),
        }
    }

    /// What the line says.
    pub fn line(&self, choice: &Choice) -> Statement {
        let word = match self.form {
            Form::Triple => "to",
            Form::Implication => "gives",
            Form::Inclusion => "in",
        };
        // Without a premise to rest on a truth table has to be one by itself.
        let to = if self.rule == 20 && choice.bound { &self.from } else { &self.to };
        self.statement(choice, word, &self.from, to)
    }

    /// So many premises: those of the row, and the last one again where there are to be more.
    pub fn premises(&self, choice: &Choice, count: usize) -> Vec<Statement> {
        let said =
            self.premises.iter().map(|(from, word, to)| self.statement(choice, word, from, to));
        let mut said: Vec<Statement> = said.collect();
        let last = said.last().cloned().unwrap_or_else(|| self.line(choice));
        said.resize(count, last);
        said
    }

    /// Whether the line of this choice, with so many premises, fits the rule.
    pub fn fits(&self, program: &Program, choice: &Choice, count: usize) -> bool {
        let premises = self.premises(choice, count);
        let premises: Vec<&Statement> = premises.iter().collect();
        follows(program, self.rule, &self.line(choice), &premises)
    }
}

/// What binds a letter by words.
const BINDING: [&str; 5] = [
    "by truth table",
    "n is f, for 8 it is r + f",
    "q and h are those of the second half",
    "v is the start value of x",
    "the mark of r is 1",
];

/// What may not occur in which letter.
fn barred_by(asked: &str) -> Vec<(char, Named)> {
    let (letter, named): (char, &[Named]) = match asked {
        "r not in P" => ('P', &REGISTER),
        "r not in J" => ('J', &REGISTER),
        "x not in P if written" => ('P', &WORD),
        "x not in J" => ('J', &WORD),
        "unsync x and cov x not in E" => ('E', &FLAGS),
        "by rows" => return Vec::new(),
        other if BINDING.contains(&other) => return Vec::new(),
        other => panic!("nobody tests `{other}`"),
    };
    named.iter().map(|&named| (letter, named)).collect()
}
