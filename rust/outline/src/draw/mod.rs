//! A run as a drawing: its steps in columns, the rows of writes with the views, and what is false at its end.

mod canvas;
pub mod falsehood;
mod memory;
pub mod story;
mod timeline;

use crate::markup::{el, Element};
use crate::text::counted;
use crate::text::print::Names;
use canvas::{Canvas, LINE};
use falsehood::{faults, Fault};
use memory::{line, Below};
use reference::explore::Run;
use reference::image::Program;
use reference::machine::{State, View};
use story::Story;

/// Room on all sides.
const MARGIN: i32 = 20;
/// The drawing is at least this wide, so that texts have room.
const LEAST_WIDTH: i32 = 560;
/// So many false parts are drawn with their prospects; the others are named.
const MOST_PROSPECTS: usize = 3;

const STYLE: &str = include_str!("style.css");

/// What stands in and below the writes.
const MARKS: &str =
    "rel: releasing. cov: covered. Below a write: the threads whose views name it, or the \
                     numbers of the views that do.";

/// The classes of a thread's colour.
struct Colour {
    head: &'static str,
    fill: &'static str,
}

const fn colour(head: &'static str, fill: &'static str) -> Colour {
    Colour { head, fill }
}

/// A colour for each thread; there are at most four.
const COLOURS: [Colour; 4] = [
    colour("run-head run-ink-1", "run-fill-1"),
    colour("run-head run-ink-2", "run-fill-2"),
    colour("run-head run-ink-3", "run-fill-3"),
    colour("run-head run-ink-4", "run-fill-4"),
];

/// How a run ends.
pub enum Ending {
    /// The assertion of this thread is false; its words.
    False { thread: u8, words: String },
    /// Two threads meet at points where they never should; the words.
    Met(String),
    /// The registers are as was asked.
    Outcome(String),
}

/// A run to be drawn.
pub struct Picture<'a> {
    pub program: &'a Program,
    pub names: &'a Names,
    pub run: &'a Run,
    pub ending: Ending,
}

impl Picture<'_> {
    /// The drawing, with its styles in it.
    pub fn svg(&self) -> Element {
        let story = Story::of(self.program, self.names, self.run);
        let mut canvas = Canvas::default();
        canvas.reaches(LEAST_WIDTH, MARGIN);
        let breaks = !matches!(self.ending, Ending::Outcome(_));
        timeline::draw(&mut canvas, self.names, &story, breaks);
        legend(&mut canvas, &story);
        match &self.ending {
            Ending::False { thread, words } => self.broken(&mut canvas, &story, *thread, words),
            Ending::Met(text) => {
                let text = format!("Claimed never to meet: {text}");
                self.reached(&mut canvas, &story, &text);
            }
            Ending::Outcome(text) => {
                self.reached(&mut canvas, &story, &format!("At the end: {text}"));
            }
        }
        let right = canvas.width();
        canvas.reaches(0, canvas.below + 10);
        line(&mut canvas, "run-text run-soft", MARKS, right);
        framed(canvas, &self.title())
    }

    /// What the drawing is, for those who do not see it.
    fn title(&self) -> String {
        let steps = counted(self.run.steps.len(), "step");
        match &self.ending {
            Ending::False { thread, words } => {
                let name = self.names.thread(*thread);
                format!("A run of {steps} after which {name}'s assertion is false: {words}")
            }
            Ending::Met(text) => {
                format!("A run of {steps} after which these meet: {text}")
            }
            Ending::Outcome(text) => format!("A run of {steps} after which {text}"),
        }
    }

    fn broken(&self, canvas: &mut Canvas, story: &Story, thread: u8, words: &str) {
        let right = canvas.width();
        let steps = story.acts.len();
        if steps > 0 {
            heading(canvas, &format!("Before step {steps}: the writes, and where each view is"));
            memory::draw(canvas, self.names, story.before_last(), None, &Below::Views);
        }
        let end = story.end();
        let point = end.state.points[usize::from(thread) - 1];
        let name = self.names.thread(thread);
        let when = if steps > 0 { format!("After step {steps}") } else { "At the start".into() };
        let at = self.names.point(thread, point);
        heading(canvas, &format!("{when}: {name}'s assertion at {at} is false"));
        line(canvas, "run-text run-strong", words, right);
        self.registers(canvas, &end.state, right);
        let assertion = self.program.assertion(thread, point);
        let found = faults(self.names, &self.program.header, &end.state, assertion);
        let mut drawn = 0;
        for fault in &found {
            drawn += usize::from(fault.prospect.is_some());
            self.fault(canvas, story, fault, drawn <= MOST_PROSPECTS, right);
        }
    }

    /// A false part, and the prospect that violates it.
    fn fault(&self, canvas: &mut Canvas, story: &Story, fault: &Fault, drawn: bool, right: i32) {
        canvas.reaches(0, canvas.below + 10);
        line(canvas, "run-text run-bad", &format!("Not so: {}", fault.text), right);
        let Some((thread, views)) = &fault.prospect else { return };
        let state = &story.end().state;
        let told: Vec<String> = views.iter().map(|view| self.view(state, view)).collect();
        let name = self.names.thread(*thread);
        let may = format!("{name} may come to see: {}", told.join(", then "));
        line(canvas, "run-text", &may, right);
        if drawn {
            let new = Some(story.acts.len());
            let below = Below::Prospect(*thread, views);
            memory::draw(canvas, self.names, story.end(), new, &below);
        }
    }

    fn reached(&self, canvas: &mut Canvas, story: &Story, text: &str) {
        let right = canvas.width();
        heading(canvas, text);
        self.registers(canvas, &story.end().state, right);
        memory::draw(canvas, self.names, story.end(), None, &Below::Views);
    }

    fn registers(&self, canvas: &mut Canvas, state: &State, right: i32) {
        let values = self.names.registers.iter().zip(&state.registers);
        let all: Vec<String> = values.map(|(name, value)| format!("{name} = {value}")).collect();
        if !all.is_empty() {
            line(canvas, "run-text run-soft", &format!("registers: {}", all.join(", ")), right);
        }
    }

    /// The value of each word at a view.
    fn view(&self, state: &State, view: &View) -> String {
        let value = |x: u8| state.row(x)[usize::from(view.at(x))].value;
        let words = (1..).zip(&self.names.words).map(|(x, name)| format!("{name} = {}", value(x)));
        format!("({})", words.collect::<Vec<String>>().join(", "))
    }
}

fn heading(canvas: &mut Canvas, text: &str) {
    let right = canvas.width();
    let y = canvas.below + 20;
    canvas.path(format!("M{MARGIN} {y} H{right}"), "run-rule", None);
    canvas.reaches(0, y + 8);
    line(canvas, "run-title", text, right);
}

/// What the arrows and marks mean, as far as they occur.
fn legend(canvas: &mut Canvas, story: &Story) {
    let reads = story.acts.iter().any(|act| act.reads.is_some());
    let syncs = story.acts.iter().any(|act| act.acquires.is_some());
    let kinds = [
        (reads, "run-reads", "url(#run-read-head)", "reads from"),
        (syncs, "run-syncs", "url(#run-sync-head)", "acquires what was released"),
    ];
    let y = canvas.below + LINE;
    let mut x = MARGIN;
    for (_, class, head, text) in kinds.into_iter().filter(|(there, ..)| *there) {
        canvas.path(format!("M{x} {} H{}", y - 4, x + 34), class, Some(head));
        canvas.text((x + 44, y), "run-text run-soft", text);
        x += 44 + canvas::width(text, canvas::LETTER) + 28;
    }
}

/// The whole drawing on its paper.
fn framed(canvas: Canvas, title: &str) -> Element {
    let (width, height) = (canvas.width() + MARGIN, canvas.below + MARGIN);
    let paper = el("rect").with("width", width).with("height", height).with("class", "run-paper");
    el("svg")
        .with("xmlns", "http://www.w3.org/2000/svg")
        .with("class", "run")
        .with("role", "img")
        .with("width", width)
        .with("height", height)
        .with("viewBox", format!("0 0 {width} {height}"))
        .child(el("title").text(title))
        .child(el("style").style(STYLE))
        .child(el("defs").all([
            head("run-read-head", "run-read-tip"),
            head("run-sync-head", "run-sync-tip"),
            hatch(),
        ]))
        .child(paper)
        .all(canvas.into_items())
}

/// An arrow's head.
fn head(id: &'static str, class: &'static str) -> Element {
    let marker = el("marker").with("id", id).with("viewBox", "0 0 10 10").with("refX", 9);
    let marker = marker.with("refY", 5).with("markerWidth", 9).with("markerHeight", 9);
    let marker = marker.with("markerUnits", "userSpaceOnUse").with("orient", "auto");
    marker.child(el("path").with("d", "M0 0 L10 5 L0 10 z").with("class", class))
}

/// The hatching of covered writes.
fn hatch() -> Element {
    let pattern = el("pattern").with("id", "run-hatch").with("width", 7).with("height", 7);
    let pattern = pattern.with("patternUnits", "userSpaceOnUse");
    pattern
        .child(el("path").with("d", "M-2 2 L2 -2 M0 7 L7 0 M5 9 L9 5").with("class", "run-hatch"))
}
