//! The obligations as a table by class. A click on one opens the lines that it rests on, down to the last premise.

use super::goals::{class_of, class_title, duty_element};
use super::parts::{self, answer, note, opened, REFUSED};
use super::trees::Trees;
use super::{rules, Content};
use crate::judged::{Goal, Judged, NOTHING_FOLLOWS};
use crate::markup::{el, of, Element};
use reference::checker::obligations::Duty;

pub fn section(content: &Content) -> Element {
    let all = duties(content);
    let there = all.iter().filter(|(judged, _)| judged.has_its_line()).count();
    let lines = content.image.written.lines.len();
    let share = format!("{there} of {}", all.len());
    let said = match content.accepted {
        true => format!("{share} are met, by a certificate of {lines} lines."),
        false => {
            format!("{REFUSED} {share} have their lines in a certificate of {lines} lines; {NOTHING_FOLLOWS}.")
        }
    };
    let said = format!("{said} Open one to see the lines that it rests on.");
    let heads = ["No.", "Obligation", "Rule", "Answer"];
    let heads = el("tr").all(heads.map(|text| el("th").with("scope", "col").text(text)));
    let mut trees = Trees::of(content);
    let bodies: Vec<Element> = (1..=4).filter_map(|class| body(&mut trees, &all, class)).collect();
    let table = of("table", "obligations").child(el("thead").child(heads)).all(bodies);
    parts::section("obligations", "Obligations").child(note(&said)).child(table)
}

/// The obligations with their answers.
fn duties(content: &Content) -> Vec<(&Judged, Duty)> {
    let duty = |judged: &Judged| match judged.goal {
        Goal::Duty(duty) => Some(duty),
        Goal::Claim(_) => None,
    };
    content.judged.iter().filter_map(|judged| Some((judged, duty(judged)?))).collect()
}

/// The rows of a class, if it has any.
fn body(trees: &mut Trees, all: &[(&Judged, Duty)], class: u8) -> Option<Element> {
    let own = (1..).zip(all).filter(|(_, (_, duty))| class_of(duty) == class);
    let own: Vec<(usize, &(&Judged, Duty))> = own.collect();
    let there = own.iter().filter(|(_, (judged, _))| judged.has_its_line()).count();
    let title = format!("Class {class}: {}", class_title(class));
    let have = if trees.content.accepted { "met" } else { "have their lines" };
    let count = of("span", "count").text(format!("{there} of {} {have}", own.len()));
    let title = el("th").with("colspan", 4).with("scope", "rowgroup").text(title);
    let title = of("tr", "class").child(title.text(" ").child(count));
    let rows: Vec<Element> =
        own.iter().map(|(n, (judged, duty))| row(trees, *n, judged, duty)).collect();
    (!own.is_empty()).then(|| el("tbody").child(title).all(rows))
}

fn row(trees: &mut Trees, number: usize, judged: &Judged, duty: &Duty) -> Element {
    let content = trees.content;
    let line = usize::from(judged.line).checked_sub(1).map(|at| &content.image.written.lines[at]);
    let rule = line.map_or("–".to_string(), |line| line.rule.to_string());
    let title = line.map_or("", |line| rules::title(line.rule));
    let words = duty_element(content, duty);
    let what = match line {
        Some(_) => of("td", "what").all(opened(words, trees.tree(judged.line))),
        None => of("td", "what").child(of("p", "unnamed").child(words)),
    };
    let (class, said) = answer(judged.standing(content.accepted));
    el("tr")
        .child(of("td", "no").text(number))
        .child(what)
        .child(of("td", "rule").with("title", title).text(rule))
        .child(of("td", class).text(said))
}
