//! The fields of bodies: their names in order, and sizes that add up to the bodies of an image.

use crate::images::{double, line, single, with_code, ZERO};
use crate::page::table;
use reference::checker::frames;
use reference::image::written::{Record, Written};
use reference::image::{Claim, Meeting};

/// The record of a row; a row without one goes on with the record before.
fn fields() -> Vec<(String, String, String)> {
    let mut record = String::new();
    let rows = table(["Record", "Field", "Size", "Range"]).into_iter();
    rows.map(|[name, field, size, _]| {
        if !name.is_empty() {
            record = name;
        }
        (record.clone(), field, size)
    })
    .collect()
}

/// An image in which no two counts are the same.
fn image() -> Written {
    let code = vec![single(0, 1, 0, ZERO), double(12, 1, 0, ZERO, 2, ZERO), single(6, 0, 0, 3)];
    let mut image = with_code(2, code);
    let mut second = line(20, 2, 1);
    second.premises = vec![1; 3];
    image.lines.push(second);
    let meeting = Meeting { thread: 1, point: 0, other_thread: 2, other_point: 0 };
    image.claims = vec![Claim { meeting, line: 0 }];
    image
}

/// How many bytes a field of this size has in a record of the image. What instructions and a formula have is what is left.
fn bytes(image: &Written, record: &Record, field: &str, size: &str) -> Option<usize> {
    let names = field.split(", ").count();
    let premises = |body: &[u8]| usize::from(body[7]);
    Some(match size {
        "byte" => 1,
        "bytes" => names,
        "number" => 2,
        "numbers" => 2 * names,
        "W bytes" => image.header.counts.words.into(),
        "R bytes" => image.header.counts.registers.into(),
        "k numbers" => 2 * premises(&record.body),
        "number for each point" => 2 * image.outline.len(),
        "number for each obligation" => 2 * image.obligations.len(),
        "1 to 255 bytes" | "5 or 10 bytes each" => return None,
        other => panic!("no size `{other}`"),
    })
}

#[test]
fn fields_add_up_to_the_bodies() {
    let (image, fields) = (image(), fields());
    let names = ["header", "formula", "thread", "outline", "line", "obligations", "", "claim"];
    for record in image.records() {
        let name = names[usize::from(record.kind) - 1];
        let own = fields.iter().filter(|(of, ..)| of == name);
        let sizes: Vec<Option<usize>> =
            own.map(|(_, field, size)| bytes(&image, &record, field, size)).collect();
        let known: usize = sizes.iter().flatten().sum();
        let open = matches!(record.kind, frames::FORMULA | frames::THREAD);
        assert_eq!(sizes.contains(&None), open, "{name}");
        let rest = record.body.len() - known;
        let instructions: usize = 5 + 10 + 5;
        match record.kind {
            frames::FORMULA => assert!((1..=255).contains(&rest)),
            frames::THREAD => assert!(rest == instructions || rest == 0, "{rest}"),
            _ => assert_eq!(rest, 0, "{name}"),
        }
    }
}

#[test]
fn fields_are_named_in_their_order() {
    let named = [
        "header: threads T",
        "header: words W",
        "header: registers R",
        "header: range",
        "header: start values",
        "header: owners",
        "header: start marks",
        "formula: prefix form",
        "thread: points n",
        "thread: instructions",
        "outline: formula",
        "line: rule",
        "line: thread, point",
        "line: left, right",
        "line: premise count k",
        "line: premises",
        "obligations: line",
        "claim: thread, point, other thread, other point",
        "claim: line",
    ];
    let told = fields().into_iter().map(|(record, field, _)| format!("{record}: {field}"));
    assert_eq!(told.collect::<Vec<String>>(), named);
}
