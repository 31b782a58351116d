//! What the proved programs over stored sets write if no answer differs.

use reference::stored::{bills, crossings, handovers, replays, service, stored_images, trims};
use std::collections::BTreeMap;

/// The words for what is done at a service, in the order of their numbers.
const DONE: [&str; 8] =
    ["opened", "set", "checked", "trimmed", "billed", "handed over", "replayed", "replayed across"];

/// The line for a container, by its name of images trimmed, billed, replayed, handed over or judged, counted from what is
/// stored; none if it is cut short.
pub fn line(name: &str, bytes: &[u8]) -> Option<String> {
    if name.starts_with("service") {
        return service_line(name, bytes);
    }
    let stored: Vec<u16> = match name {
        _ if name.starts_with("trim") => {
            trims::cases(bytes)?.iter().map(|case| case.code).collect()
        }
        _ if name.starts_with("bills") => {
            bills::cases(bytes)?.iter().map(|case| case.code).collect()
        }
        _ if name.starts_with("replay") => {
            replays::cases(bytes)?.iter().map(|case| case.told.code).collect()
        }
        _ if name.starts_with("handover") => {
            handovers::cases(bytes)?.iter().map(|case| case.code).collect()
        }
        _ if name.starts_with("across") => {
            crossings::cases(bytes)?.iter().map(|case| case.told.code).collect()
        }
        _ => stored_images(bytes)?.iter().map(|case| case.fields[0]).collect(),
    };
    Some(format!("{name}: {} cases{}; 0 differ", stored.len(), by_code(&stored)))
}

/// How many there are of each code that comes.
fn by_code(codes: &[u16]) -> String {
    let mut counts = BTreeMap::new();
    for code in codes {
        *counts.entry(code).or_insert(0) += 1;
    }
    counts.iter().map(|(code, count)| format!(", {count} of code {code}")).collect()
}

/// The line for turns at a service, counted by what is done.
fn service_line(name: &str, bytes: &[u8]) -> Option<String> {
    let cases = service::cases(bytes)?;
    let of_kind = |kind| cases.iter().filter(|case| case.turn.kind as usize == kind).count();
    let counts = DONE.iter().enumerate().map(|(kind, word)| format!("{} {word}", of_kind(kind)));
    let counts: Vec<String> = counts.collect();
    Some(format!("{name}: {} cases: {}; 0 differ", cases.len(), counts.join(", ")))
}

#[cfg(test)]
mod tests {
    use super::line;
    use crate::vectors::images::SMALL;
    use crate::vectors::store::{container, trims};
    use crate::vectors::trims::TrimCase;
    use crate::vectors::Case;

    #[test]
    fn counts_by_code() {
        let cases = [Case::new("empty", Vec::new()), Case::new("cut short", vec![1])];
        let expected = "two.bin: 2 cases, 1 of code 2, 1 of code 3; 0 differ";
        assert_eq!(line("two.bin", &container(&cases)).as_deref(), Some(expected));
    }

    #[test]
    fn counts_what_was_trimmed() {
        let case = |room| TrimCase { label: String::new(), image: SMALL.to_vec(), room };
        let expected = "trim.bin: 3 cases, 1 of code 0, 2 of code 25; 0 differ";
        let (bytes, _) = trims(&[case(49), case(50), case(0)]);
        assert_eq!(line("trim.bin", &bytes).as_deref(), Some(expected));
    }

    #[test]
    fn a_container_cut_short_has_no_line() {
        assert_eq!(line("cut.bin", &[1, 0]), None);
    }
}
