//! Two points that meet and have more leaves together than rule 20 takes.

use crate::build::Goal;
use crate::text::report;
use crate::text::source::Source;
use reference::checker::obligations::Duty;
use reference::checker::rules::table::{Leaves, MOST_LEAVES};

/// Of these goals the one whose two points have the most leaves together, in words; none if all stay within ten.
pub fn too_many(source: &Source, goals: &[Goal]) -> Option<String> {
    let program = source.program();
    let counted = |goal: &Goal| {
        let Goal::Duty(Duty::Kept { thread, point, actor, action }) = *goal else { return None };
        let wanted = goal.wanted(&program);
        let Leaves(leaves) = Leaves::of(wanted.assertions().0);
        (leaves.len() > MOST_LEAVES).then_some((leaves.len(), [(thread, point), (actor, action)]))
    };
    let mut most: Option<(usize, [(u8, u8); 2])> = None;
    for found in goals.iter().filter_map(counted) {
        if most.is_none_or(|(leaves, _)| found.0 > leaves) {
            most = Some(found);
        }
    }
    let (leaves, places) = most?;
    let [one, other] = places.map(|(t, p)| report::point(&source.names, Some(source), t, p));
    Some(format!(
        "{one} and {other} have {leaves} leaves together, and rule 20 takes {MOST_LEAVES}"
    ))
}

#[cfg(test)]
mod tests {
    use super::*;
    use crate::text::parse_source::parse;

    #[test]
    fn two_points_with_eleven_leaves_are_told() {
        let own = ["a", "b", "c", "d", "e", "f"];
        let said = |names: &[&str]| {
            names.iter().map(|r| format!("{r} = 0")).collect::<Vec<_>>().join(" and ")
        };
        let text = |others: &[&str]| {
            let (left, right) = (said(&own), said(others));
            format!(
                "word x = 0\nthread left\n registers {}\n {{ {left} }} x := 1 {{ {left} }}\n\
                 thread right\n registers g, h, i, j, k\n {{ {right} }} x := 1 {{ {right} }}\n",
                own.join(", ")
            )
        };
        let told = |others: &[&str]| {
            let source = parse(&text(others)).expect("an outline");
            too_many(&source, &Goal::all(&source))
        };
        let many = told(&["g", "h", "i", "j", "k"]).expect("eleven");
        assert!(many.contains("thread 1 (left) point 0") && many.contains("11 leaves"), "{many}");
        assert_eq!(told(&["g", "h", "i", "j"]), None);
    }
}
