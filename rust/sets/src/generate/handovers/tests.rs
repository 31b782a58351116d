//! Every code comes often, and what is permitted is not always the same.
use super::{pair, Pair};
use reference::checker::accepted;
use reference::handover::{check_handover, permitted};
use std::collections::BTreeMap;

#[test]
fn a_seed_gives_one_pair() {
    for seed in 0..50 {
        assert_eq!(pair(seed), pair(seed));
    }
}

/// What there is to be seen in a handover.
fn kinds(pair: &Pair, code: u16) -> Vec<&'static str> {
    let images = [&pair.old, &pair.new].map(|image| accepted(image));
    let [Some(old), Some(new)] = &images else {
        return vec!["an image is refused"];
    };
    let mut kinds = Vec::new();
    if code == 32 {
        let (one, other) = (&old.program.header, &new.program.header);
        kinds.push("unlike");
        let (one_count, other_count) = (one.counts, other.counts);
        let counts = [
            (one_count.threads != other_count.threads, "threads differ"),
            (one_count.words != other_count.words, "words differ"),
            (one_count.registers != other_count.registers, "registers differ"),
            (one_count.range != other_count.range, "ranges differ"),
        ];
        let alone = [
            (one.start != other.start, "start values alone"),
            (one.owners != other.owners, "owners alone"),
            (one.marks != other.marks, "marks alone"),
        ];
        kinds.extend(counts.iter().filter(|(differ, _)| *differ).map(|(_, kind)| kind));
        if one_count == other_count {
            let mut differ = alone.iter().filter(|(differ, _)| *differ);
            if let (Some((_, kind)), None) = (differ.next(), differ.next()) {
                kinds.push(kind);
            }
        }
    }
    if code == 33 {
        let points: usize = old.program.outline.iter().map(Vec::len).sum();
        kinds.push(match pair.table.len().cmp(&(3 * points)) {
            std::cmp::Ordering::Less => "too short",
            std::cmp::Ordering::Greater => "too long",
            std::cmp::Ordering::Equal => "out of range",
        });
    }
    if code == 0 {
        let handover = permitted(&pair.old, &pair.new, &pair.table).expect("permitted");
        let places = handover.points.iter().flat_map(|points| points.iter().enumerate());
        let moves = places.clone().any(|(from, &to)| from != usize::from(to));
        kinds.push(if moves { "a point moves" } else { "all points stay" });
        let same = old.program.outline == new.program.outline;
        kinds.push(if same { "the same outline" } else { "another outline" });
        let rules = pair
            .table
            .chunks_exact(3)
            .map(|entry| new.lines[usize::from(u16::from_le_bytes([entry[1], entry[2]])) - 1].rule);
        for rule in rules {
            match rule {
                20 => {}
                21 => kinds.push("by rule 21"),
                22 => kinds.push("by rule 22"),
                _ => kinds.push("by another rule"),
            }
        }
    }
    kinds
}

#[test]
fn every_kind_occurs() {
    let (mut codes, mut counts) = (BTreeMap::new(), BTreeMap::new());
    for seed in 0..4000 {
        let pair = pair(seed);
        let code = check_handover(&pair.old, &pair.new, &pair.table);
        *codes.entry(code).or_insert(0) += 1;
        for kind in kinds(&pair, code) {
            *counts.entry(kind).or_insert(0) += 1;
        }
    }
    println!("{codes:?}\n{counts:?}");
    assert_eq!(codes.keys().copied().collect::<Vec<u16>>(), [0, 32, 33, 34]);
    assert!(codes.values().all(|&count| count >= 300), "{codes:?}");
    assert!(counts.len() >= 17 && counts.values().all(|&count| count >= 8), "{counts:?}");
}
