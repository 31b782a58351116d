//! Threads as columns, steps from top to bottom, arrows from reads to writes and from acquires to releases.

use super::canvas::{width, wrapped, Area, Canvas, LETTER, LINE, SMALL};
use super::story::{Act, Maker, Story};
use super::{COLOURS, MARGIN};
use crate::text::print::Names;

/// Letters in a line of a box; pixels about a text in it; between columns; between rows.
const MOST_LETTERS: usize = 34;
const PAD: i32 = 12;
const GUTTER: i32 = 64;
const GAP: i32 = 14;
/// Between the start and the first step: arrows turn here.
const BAND: i32 = 36;
const LEAST_COLUMN: i32 = 150;
/// Room for the numbers of the steps.
const NUMBERS: i32 = 34;

/// Where everything stands.
struct Layout {
    columns: Vec<(i32, i32)>,
    /// The start write of each word.
    starts: Vec<Area>,
    boxes: Vec<Area>,
}

/// Draws the run; the last step is marked if it breaks something.
pub fn draw(canvas: &mut Canvas, names: &Names, story: &Story, breaks: bool) {
    let columns = columns(names, story);
    let top = canvas.below + LINE;
    let starts = start_areas(names, story, &columns, top + LINE + GAP);
    let below = starts.iter().map(Area::bottom).max().unwrap_or(top);
    let boxes = boxes(story, &columns, below + BAND);
    let layout = Layout { columns, starts, boxes };
    let bottom = layout.boxes.last().map_or(below, Area::bottom) + GAP;
    heads(canvas, names, &layout, top, bottom);
    for act in &story.acts {
        arrows(canvas, &layout, act);
    }
    start_band(canvas, names, story, &layout);
    for (n, act) in story.acts.iter().enumerate() {
        let last = n + 1 == story.acts.len();
        step(canvas, &layout.boxes[n], act, breaks && last);
    }
    canvas.reaches(0, bottom);
}

/// Left edge and width of each thread's column, as wide as its widest text.
fn columns(names: &Names, story: &Story) -> Vec<(i32, i32)> {
    let mut left = MARGIN + NUMBERS;
    let mut all = Vec::new();
    for (thread, name) in (1..).zip(&names.threads) {
        let own = story.acts.iter().filter(|act| act.thread == thread);
        let texts = own.flat_map(lines).map(|line| width(&line, LETTER));
        let name = width(name, LETTER).min(MOST_LETTERS as i32 * LETTER);
        let widest = texts.chain([name]).max().expect("a name is there");
        let column = (widest + 2 * PAD).max(LEAST_COLUMN);
        all.push((left, column));
        left += column + GUTTER;
    }
    all
}

/// The instruction and what it did, in lines that fit into a column.
fn lines(act: &Act) -> Vec<String> {
    [wrapped(&act.instruction, MOST_LETTERS), wrapped(&act.effect, MOST_LETTERS)].concat()
}

fn boxes(story: &Story, columns: &[(i32, i32)], mut top: i32) -> Vec<Area> {
    let mut all = Vec::new();
    for act in &story.acts {
        let (left, width) = columns[usize::from(act.thread) - 1];
        let height = lines(act).len() as i32 * LINE + PAD;
        all.push(Area { left, top, width, height });
        top += height + GAP;
    }
    all
}

/// The start write of each word, side by side as far as there is room.
fn start_areas(names: &Names, story: &Story, columns: &[(i32, i32)], top: i32) -> Vec<Area> {
    let (last, column) = columns.last().expect("a program has a thread");
    let most = (last + column).max(480);
    let first = MARGIN + NUMBERS + width("start", LETTER) + GAP;
    let (mut left, mut top) = (first, top);
    let mut all = Vec::new();
    for (x, word) in (1..).zip(&names.words) {
        let width = width(&start_text(story, word, x), LETTER) + 2 * PAD;
        if left > first && left + width > most {
            (left, top) = (first, top + LINE + PAD + 6);
        }
        all.push(Area { left, top, width, height: LINE + 8 });
        left += width + GAP;
    }
    all
}

fn start_text(story: &Story, word: &str, x: u8) -> String {
    let short = wrapped(word, MOST_LETTERS).remove(0);
    format!("{short} = {}", story.moments[0].state.row(x)[0].value)
}

/// The names of the threads and a line down from each.
fn heads(canvas: &mut Canvas, names: &Names, layout: &Layout, top: i32, bottom: i32) {
    for (n, name) in names.threads.iter().enumerate() {
        let (left, width) = layout.columns[n];
        let middle = left + width / 2;
        let short = wrapped(name, MOST_LETTERS).remove(0);
        canvas.centred((middle, top), COLOURS[n].head, &short);
        canvas.path(format!("M{middle} {} V{bottom}", top + 8), "run-life", None);
    }
}

fn start_band(canvas: &mut Canvas, names: &Names, story: &Story, layout: &Layout) {
    let Some(first) = layout.starts.first() else { return };
    canvas.text((MARGIN + NUMBERS, first.top + LINE), "run-soft", "start");
    for ((x, word), area) in (1..).zip(&names.words).zip(&layout.starts) {
        canvas.area(*area, area.height / 2, "run-start");
        let (middle, _) = area.middle();
        canvas.centred((middle, area.top + LINE), "run-text", &start_text(story, word, x));
    }
}

fn step(canvas: &mut Canvas, area: &Area, act: &Act, broken: bool) {
    let colour = &COLOURS[usize::from(act.thread) - 1];
    canvas.area(*area, 6, if broken { "run-box run-broken" } else { "run-box" });
    let stripe = Area { width: 4, height: area.height - 12, top: area.top + 6, ..*area };
    canvas.area(stripe, 2, colour.fill);
    let (_, middle) = area.middle();
    let number = MARGIN + NUMBERS / 2 - 6;
    canvas.circle((number, middle), 11, if broken { "run-number run-wrong" } else { "run-number" });
    canvas.centred((number, middle + 4), "run-count", &act.number.to_string());
    let first = wrapped(&act.instruction, MOST_LETTERS).len();
    for (n, line) in lines(act).iter().enumerate() {
        let class = if n < first { "run-text run-strong" } else { "run-text run-soft" };
        let y = area.top + PAD / 2 + LINE * n as i32 + 13;
        canvas.text((area.left + PAD, y), class, line);
    }
}

fn arrows(canvas: &mut Canvas, layout: &Layout, act: &Act) {
    let from = &layout.boxes[act.number - 1];
    match act.reads {
        Some((x, Maker::Start)) => {
            to_start(canvas, layout, act, &layout.starts[usize::from(x) - 1])
        }
        Some((_, Maker::Step(n))) => between(canvas, from, &layout.boxes[n - 1], false),
        None => {}
    }
    if let Some(n) = act.acquires {
        between(canvas, from, &layout.boxes[n - 1], true);
    }
}

/// From the box of a read to a write of the start: straight up where nothing is in the way, else along the gutter.
fn to_start(canvas: &mut Canvas, layout: &Layout, act: &Act, to: &Area) {
    let from = &layout.boxes[act.number - 1];
    let ((target, _), end) = (to.middle(), to.bottom() + 2);
    let above = layout.boxes[..act.number - 1].iter().any(|other| other.left == from.left);
    let over = (from.left + PAD..from.right() - PAD).contains(&target);
    let path = if over && !above {
        format!("M{target} {} V{end}", from.top)
    } else {
        // The numbers of the steps stand on the left of the first column.
        let right = target > from.middle().0 || from.left == layout.columns[0].0;
        let (side, out) = if right { (from.right(), 1) } else { (from.left, -1) };
        // Arrows of different steps have lanes of their own.
        let lane = side + out * (14 + 6 * (act.number as i32 % 3));
        let (y, turn) = (from.middle().1 + 5, end + BAND / 2);
        let up = (y - 24).max(turn);
        canvas.reaches(lane, 0);
        format!("M{side} {y} Q{lane} {y} {lane} {up} V{turn} C{lane} {end} {target} {turn} {target} {end}")
    };
    canvas.path(path, "run-reads", Some("url(#run-read-head)"));
}

/// From the box of a read or an acquire to that of the step whose write it is about.
fn between(canvas: &mut Canvas, from: &Area, to: &Area, acquires: bool) {
    let (class, head, shift) = match acquires {
        true => ("run-syncs", "url(#run-sync-head)", -5),
        false => ("run-reads", "url(#run-read-head)", 5),
    };
    let (y1, y2) = (from.middle().1 + shift, to.middle().1 + shift);
    let (x1, x2, out1, out2) = if from.left == to.left {
        (from.right(), to.right() + 2, 1, 1)
    } else if from.left > to.left {
        (from.left, to.right() + 2, -1, 1)
    } else {
        (from.right(), to.left - 2, 1, -1)
    };
    let bend = GUTTER / 2 + 4 * SMALL.min((y1 - y2) / 40);
    let (c1, c2) = (x1 + out1 * bend, x2 + out2 * bend);
    canvas.reaches(c1.max(c2), 0);
    canvas.path(format!("M{x1} {y1} C{c1} {y1} {c2} {y2} {x2} {y2}"), class, Some(head));
}
