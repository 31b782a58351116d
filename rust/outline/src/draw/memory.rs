//! Rows of writes, with the views of threads or the views of a prospect below them.

use super::canvas::{width, wrapped, Area, Canvas, LETTER, LINE, SMALL};
use super::story::{Maker, Moment};
use super::{COLOURS, MARGIN};
use crate::text::print::Names;
use reference::machine::{View, Write};

/// A write's box, and the room between two of them.
const WIDTH: i32 = 76;
const HEIGHT: i32 = 44;
const LINK: i32 = 26;
/// A mark below a write: a thread's name or a number.
const MARK: i32 = 20;
/// A name in front of a row and below a write has at most so many letters.
const MOST_NAME: usize = 16;
const MOST_MARK: usize = 9;

/// What stands below the writes.
pub enum Below<'a> {
    /// Each thread at the write that its view names.
    Views,
    /// The views of a prospect of a thread, numbered.
    Prospect(u8, &'a [View]),
}

/// Draws all rows of a moment; the write of the step `new` is marked.
pub fn draw(
    canvas: &mut Canvas,
    names: &Names,
    moment: &Moment,
    new: Option<usize>,
    below: &Below,
) {
    let label = names.words.iter().map(|name| short(name, MOST_NAME).chars().count()).max();
    let left = MARGIN + label.unwrap_or(0) as i32 * LETTER + 20;
    for (x, word) in (1..).zip(&names.words) {
        let top = canvas.below + 16;
        let middle = top + HEIGHT / 2;
        canvas.text((MARGIN, middle + 5), "run-text run-strong", &short(word, MOST_NAME));
        let row = moment.state.row(x);
        let end = left + row.len() as i32 * (WIDTH + LINK) - LINK;
        canvas.path(format!("M{left} {middle} H{}", end - WIDTH / 2), "run-link", None);
        let mut lowest = top + HEIGHT;
        for (at, write) in row.iter().enumerate() {
            let left = left + at as i32 * (WIDTH + LINK);
            let area = Area { left, top, width: WIDTH, height: HEIGHT };
            let maker = moment.makers[usize::from(x) - 1][at];
            one_write(canvas, &area, write, maker, new);
            let marks = marks(names, moment, x, at, below);
            lowest = lowest.max(put(canvas, &area, &marks));
        }
        canvas.reaches(0, lowest);
    }
}

fn one_write(canvas: &mut Canvas, area: &Area, write: &Write, maker: Maker, new: Option<usize>) {
    let is_new = new.is_some_and(|step| maker == Maker::Step(step));
    canvas.area(*area, 6, if is_new { "run-box run-new" } else { "run-box" });
    if write.covered {
        canvas.area(*area, 6, "run-covered");
    }
    let (middle, _) = area.middle();
    canvas.centred((middle, area.top + 19), "run-value", &write.value.to_string());
    let made = match maker {
        Maker::Start => "start".to_string(),
        Maker::Step(n) => format!("step {n}"),
    };
    canvas.centred((middle, area.top + 36), "run-small", &made);
    if write.releasing {
        let y = area.top + 13;
        canvas.text((area.right() - 3 * SMALL - 5, y), "run-rel", "rel");
    }
    if write.covered {
        canvas.text((area.left + 5, area.top + 13), "run-cov", "cov");
    }
}

/// A mark: its text, and the colour of a thread.
type Mark = (String, usize);

fn marks(names: &Names, moment: &Moment, x: u8, at: usize, below: &Below) -> Vec<Mark> {
    let named = |view: &View| usize::from(view.at(x)) == at;
    match below {
        Below::Views => {
            let views = moment.state.views.iter().enumerate().filter(|(_, view)| named(view));
            views.map(|(t, _)| (short(&names.threads[t], MOST_MARK), t)).collect()
        }
        Below::Prospect(thread, views) => {
            let here = (1..).zip(*views).filter(|(_, view)| named(view));
            here.map(|(n, _): (usize, _)| (n.to_string(), usize::from(*thread) - 1)).collect()
        }
    }
}

/// The marks below a write, in lines as wide as its box; says where they end.
fn put(canvas: &mut Canvas, area: &Area, marks: &[Mark]) -> i32 {
    let (mut left, mut top) = (area.left, area.bottom() + 5);
    for (text, thread) in marks {
        let size = width(text, SMALL) + 12;
        if left > area.left && left + size > area.right() + LINK - 4 {
            (left, top) = (area.left, top + MARK + 2);
        }
        let mark = Area { left, top, width: size, height: MARK - 2 };
        canvas.area(mark, 9, COLOURS[*thread].fill);
        canvas.centred((left + size / 2, top + 13), "run-mark", text);
        left += size + 4;
    }
    if marks.is_empty() {
        area.bottom()
    } else {
        top + MARK
    }
}

/// A name cut to so many letters.
fn short(name: &str, most: usize) -> String {
    if name.chars().count() <= most {
        return name.into();
    }
    wrapped(name, most - 1).remove(0) + "…"
}

/// A line of text below what was drawn, wrapped to the width.
pub fn line(canvas: &mut Canvas, class: &'static str, text: &str, right: i32) {
    let most = ((right - MARGIN) / LETTER).max(20) as usize;
    for part in wrapped(text, most) {
        let y = canvas.below + LINE;
        canvas.text((MARGIN, y), class, &part);
        canvas.reaches(0, y + 2);
    }
}
