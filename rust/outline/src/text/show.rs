//! An image as text, in the explicit form that `build` turns into the same bytes.

use crate::image::Image;
use crate::text::print::Names;
use crate::text::sort_name;
use reference::checker::rules::Form;
use reference::image::written::Line;
use reference::image::Meeting;
use std::fmt::Write;

/// The text of an image. Every formula keeps its number, every line its place.
pub fn show(image: &Image) -> String {
    let header = &image.program.header;
    let names = Names::of(&image.program);
    let mut out = format!("range {}\n", header.counts.range);
    for (name, start) in names.words.iter().zip(&header.start) {
        let _ = writeln!(out, "word {name} = {start}");
    }
    for ((name, owner), mark) in names.registers.iter().zip(&header.owners).zip(&header.marks) {
        let open = if *mark == 0 { "open " } else { "" };
        let _ = writeln!(out, "{open}register {name} of {}", names.thread(*owner));
    }
    let mut outline = image.written.outline.iter();
    for t in image.program.thread_numbers() {
        thread(&mut out, image, &names, t, &mut outline);
    }
    if !image.written.claims.is_empty() {
        out.push('\n');
    }
    for claim in &image.written.claims {
        let Meeting { thread, point, other_thread, other_point } = claim.meeting;
        let (one, other) = (names.thread(thread), names.thread(other_thread));
        let _ = writeln!(out, "never {one} {point} and {other} {other_point}");
    }
    certificate(&mut out, image, &names);
    out
}

/// A thread, which takes the formula numbers of its points from the outline.
fn thread<'a>(
    out: &mut String,
    image: &Image,
    names: &Names,
    t: u8,
    outline: &mut impl Iterator<Item = &'a u16>,
) {
    let _ = writeln!(out, "\nthread {}", names.thread(t));
    let index = usize::from(t) - 1;
    let points = image.program.outline[index].iter().zip(outline);
    for (point, (assertion, number)) in points.enumerate() {
        let _ = writeln!(out, "  {{ {} }} @{number}", names.assertion(assertion));
        if let Some(instruction) = image.program.threads[index].get(point) {
            let written = image.written.threads[index][point];
            let halves = [written.first].into_iter().chain(written.second);
            let marks: Vec<String> = halves.map(|half| format!(" @{}", half.formula)).collect();
            let _ = writeln!(out, "    {}", names.instruction_with(t, instruction, &marks));
        }
    }
}

fn certificate(out: &mut String, image: &Image, names: &Names) {
    let _ = writeln!(out, "\ncertificate");
    for (i, a) in image.formulas.iter().enumerate() {
        let sort = sort_name(a.sort());
        let _ = writeln!(out, "  formula {}: {sort} {}", i + 1, names.formula(a));
    }
    for (i, l) in image.written.lines.iter().enumerate() {
        line(out, image, names, i + 1, l);
    }
    let _ = writeln!(out, "  obligations {}", listed(&image.written.obligations));
    let claims: Vec<u16> = image.written.claims.iter().map(|claim| claim.line).collect();
    if !claims.is_empty() {
        let _ = writeln!(out, "  claims {}", listed(&claims));
    }
}

fn listed(numbers: &[u16]) -> String {
    numbers.iter().map(u16::to_string).collect::<Vec<String>>().join(" ")
}

/// The numbers decide; the comment below repeats the formulas for the reader.
fn line(out: &mut String, image: &Image, names: &Names, number: usize, l: &Line) {
    let mut text = format!("  line {number}: rule {}", l.rule);
    if l.thread > 0 {
        let _ = write!(text, " at {} {}", names.thread(l.thread), l.point);
    }
    let _ = write!(text, " {} to {}", l.left, l.right);
    if !l.premises.is_empty() {
        let _ = write!(text, " from {}", listed(&l.premises));
    }
    let (a, b) = (image.formula(l.left), image.formula(l.right));
    let (a, b) = (names.formula(a), names.formula(b));
    let _ = writeln!(out, "{text}\n    #   {a}\n    #   {} {b}", arrow(l.rule));
}

/// What a line by this rule says between its two formulas.
pub fn arrow(rule: u8) -> &'static str {
    match Form::of_rule(rule) {
        Some(Form::Triple) => "then",
        Some(Form::Implication) => "gives",
        Some(Form::Inclusion) | None => "in",
    }
}
