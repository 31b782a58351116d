//! Where a page comes from: its date, the versions of what made it, and the digests of what it is about.

use super::parts::{code, grouped};
use super::sha256::digest;
use super::{rules, Subject};
use crate::command::judge::{KIT, PROVED};
use crate::markup::{el, of, Element};
use crate::text::print::Names;

/// What a contract quotes besides the record.
pub fn facts(subject: &Subject) -> Vec<[Element; 2]> {
    let fact = |name: &str, value: Element| [el("dt").text(name), el("dd").child(value)];
    let text = |text: &str| el("span").text(text);
    let sha = |bytes: &[u8], id: &'static str| {
        let size = format!("{} bytes, SHA-256 ", grouped(bytes.len()));
        el("span").text(size).child(code(&digest(bytes)).with("id", id))
    };
    let judge = match subject.judge == PROVED {
        true => format!("the {PROVED}"),
        false => format!("the {}, not the {PROVED}", subject.judge),
    };
    let mut all = vec![fact("Image", sha(subject.bytes, "digest"))];
    all.push(match &subject.source {
        Some(source) => fact("Source", sha(source.text, "source-digest")),
        None => fact("Source", text("none: the image was judged as it is")),
    });
    all.push(match &subject.source {
        Some(source) => fact("Names", sha(listed(source.names).as_bytes(), "names-digest")),
        None => fact("Names", text("none: an image has no names, and points have numbers")),
    });
    all.push(fact(
        "Date",
        el("time").with("datetime", subject.date).with("id", "date").text(subject.date),
    ));
    all.push(fact("Judged by", text(&judge)));
    all.push(fact("Versions", of("span", "versions").text(versions())));
    all
}

/// The names of a source, one a line: what a reader takes the numbers of an image for.
pub fn listed(names: &Names) -> String {
    let mut out = String::new();
    for (t, name) in (1_u8..).zip(&names.threads) {
        out += &format!("thread {t} {name}\n");
        let labels = names.labels.get(usize::from(t) - 1).into_iter().flatten();
        for (point, label) in labels.enumerate() {
            label.iter().for_each(|label| out += &format!("label {t} {point} {label}\n"));
        }
    }
    (1..).zip(&names.words).for_each(|(x, name): (u8, _)| out += &format!("word {x} {name}\n"));
    (1..)
        .zip(&names.registers)
        .for_each(|(r, name): (u8, _)| out += &format!("register {r} {name}\n"));
    out
}

/// Of tool, kit and rules.
pub fn versions() -> String {
    let kit = match KIT {
        Some(kit) => format!("kit {kit}"),
        None => "no kit: the independent checker".into(),
    };
    format!("outline {}; {kit}; rules {}", env!("CARGO_PKG_VERSION"), rules::version())
}

#[cfg(test)]
mod tests {
    use super::*;
    use crate::text::parse_source::parse;

    #[test]
    fn names_are_listed_by_their_numbers() {
        let text =
            "word x = 0\nthread a registers r { true } x := 1 end: { true }\nthread b { true }";
        let names = parse(text).expect("a source").names;
        assert_eq!(
            listed(&names),
            "thread 1 a\nlabel 1 1 end\nthread 2 b\nword 1 x\nregister 1 r\n"
        );
    }
}
