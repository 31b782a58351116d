//! A claim: two threads, a point of each, a line.

use super::frames::Frames;
use super::thread::points;
use super::{demand, number, Checked, LENGTH, RANGE};

pub fn check(body: &[u8], frames: &Frames) -> Checked {
    demand(body.len() == 6, LENGTH)?;
    let has_point = |at: usize| {
        let (thread, point) = (body[at] as usize, body[at + 1] as usize);
        (1..=frames.threads).contains(&thread) && point < points(frames.thread(thread))
    };
    let placed = has_point(0) && has_point(2) && body[0] != body[2];
    demand(placed && number(body, 4) <= frames.lines, RANGE)
}
