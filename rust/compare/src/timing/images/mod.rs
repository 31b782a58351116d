//! The images that are timed.

mod even;
mod growing;
mod matching;
mod rows;
mod tables;

use reference::assemble::Plan;
use reference::checker::frames;
use reference::checker::limits::{IMAGE_BYTES, LINES};
use reference::image::written::{image_bytes, Record};
use sets::examples::{largest, message_passing};
use sets::vectors::images::SMALL;

/// So many lines suffice to see what one costs; the worst images have as many as there may be.
const MANY_LINES: usize = 1000;

/// An image by its name.
type Named = (&'static str, fn() -> Vec<u8>);

/// All of them.
pub fn all() -> [Named; 25] {
    [
        ("tiny", || SMALL.to_vec()),
        ("message passing", || message_passing().bytes()),
        ("largest", largest),
        ("rows, range 2", || rows::image(2, MANY_LINES)),
        ("rows, range 3", || rows::image(3, MANY_LINES)),
        ("rows", || rows::image(8, MANY_LINES)),
        ("rows, range 16", || rows::image(16, MANY_LINES)),
        ("most rows", || rows::image(8, LINES)),
        ("truth tables", || tables::image(MANY_LINES)),
        ("most truth tables", || tables::image(LINES)),
        ("template matching", || matching::image(MANY_LINES)),
        ("1 KB", || growing::image(1 << 10)),
        ("2 KB", || growing::image(2 << 10)),
        ("4 KB", || growing::image(4 << 10)),
        ("8 KB", || growing::image(8 << 10)),
        ("16 KB", || growing::image(16 << 10)),
        ("32 KB", || growing::image(32 << 10)),
        ("64 KB", || growing::image(64 << 10)),
        ("128 KB", || growing::image(128 << 10)),
        ("144 KB", || growing::image(145 << 10)),
        ("even 1 KB", || even::image(1)),
        ("even 4 KB", || even::image(4)),
        ("even 16 KB", || even::image(16)),
        ("even 64 KB", || even::image(64)),
        ("even 214 KB", || even::image(even::LONGEST)),
    ]
}

/// The bytes of a plan in which the lines by some rules are written again and again, till there are so many lines. A
/// certificate may repeat itself, and a checker judges each line.
fn repeated(plan: &Plan, rules: &[u8], most: usize) -> Vec<u8> {
    let records = plan.records();
    let lines = records.iter().filter(|record| record.kind == frames::LINE);
    let again: Vec<&Record> = lines.clone().filter(|line| rules.contains(&line.body[0])).collect();
    let longest = again.iter().map(|line| line.bytes().len()).max().unwrap_or(1);
    let room = IMAGE_BYTES - image_bytes(&records).len();
    let more = (most - lines.count()).min(room / longest);
    let (obligations, front) = records.split_last().expect("an image has records");
    let again = again.into_iter().cycle().take(more);
    let all: Vec<Record> = front.iter().chain(again).chain([obligations]).cloned().collect();
    image_bytes(&all)
}
