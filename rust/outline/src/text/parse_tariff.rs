//! Tariffs: a price in cents for each class, and the least charge, each on a line of its own.

use super::lex::{Mistake, Place};
use super::lines::{fault, mistake, number, words, Fault};
use reference::bill::Tariff;

/// What a tariff prices: the classes 1 to 4, and the least charge.
const PRICED: [&str; 5] = ["start", "step", "taken", "interference", "least"];

/// What is wrong with a price.
pub const NO_PRICE: &str = "is no price: cents are 0 to 65535";

/// A tariff, or all mistakes of the text: each price stands there once, 0 to 65,535. `#` begins a comment.
pub fn tariff(text: &str) -> Result<Tariff, Vec<Mistake>> {
    let (mut prices, mut named, mut mistakes) = ([0; 5], [false; 5], Vec::new());
    for (line, content) in (1..).zip(text.lines()) {
        let Some(name) = words(content).next() else { continue };
        let told = match PRICED.iter().position(|priced| *priced == name) {
            None => Err(fault(content, 0, "is no part of a tariff")),
            Some(at) if named[at] => Err(fault(content, 0, "is priced twice")),
            Some(at) => {
                named[at] = true;
                price(content).map(|cents| prices[at] = cents)
            }
        };
        if let Err(fault) = told {
            mistakes.push(mistake(line, fault));
        }
    }
    let end = Place::from(text.lines().count().max(1));
    for (name, _) in PRICED.iter().zip(named).filter(|(_, named)| !named) {
        mistakes.push(Mistake { line: end, text: format!("`{name}` has no price") });
    }
    let [start, step, taken, interference, least] = prices;
    let tariff = Tariff { start, step, taken, interference, least };
    if mistakes.is_empty() {
        Ok(tariff)
    } else {
        Err(mistakes)
    }
}

/// The cents of a line that begins with a name.
fn price(content: &str) -> Result<u16, Fault> {
    let mut behind = words(content).skip(1);
    let price = behind.next().ok_or_else(|| fault(content, 0, "wants a price in cents"))?;
    if behind.next().is_some() {
        return Err(fault(content, 2, "is too much: a line has one price"));
    }
    cents(price).ok_or_else(|| fault(content, 1, NO_PRICE))
}

/// A price in cents.
pub fn cents(word: &str) -> Option<u16> {
    number(word)
}

#[cfg(test)]
mod tests {
    use super::*;

    const PRICES: &str =
        "# a year's prices\nstart 10\n step 25 # each\ntaken 0\n\ninterference 65535\nleast 500\n";

    #[test]
    fn prices_in_any_order() {
        let prices = Tariff { start: 10, step: 25, taken: 0, interference: 65_535, least: 500 };
        assert_eq!(tariff(PRICES), Ok(prices));
        let turned: Vec<&str> = PRICES.lines().rev().collect();
        assert_eq!(tariff(&turned.join("\n")), Ok(prices));
    }

    #[test]
    fn every_mistake_is_named() {
        let text = "start 10\nstep -1\n taken 65536\nfence 3\nstart 5\nleast\ninterference 4 5\n";
        let told: Vec<String> = tariff(text)
            .unwrap_err()
            .iter()
            .map(|m| format!("{}:{} {}", m.line.line, m.line.column, m.text))
            .collect();
        let expected = [
            "2:6 `-1` is no price: cents are 0 to 65535",
            "3:8 `65536` is no price: cents are 0 to 65535",
            "4:1 `fence` is no part of a tariff",
            "5:1 `start` is priced twice",
            "6:1 `least` wants a price in cents",
            "7:16 `5` is too much: a line has one price",
        ];
        assert_eq!(told, expected);
        let none = tariff("start 1\n# step 2\n").unwrap_err();
        assert_eq!(none[0].to_string(), "line 2: `step` has no price");
        assert_eq!(none.len(), 4);
    }
}
