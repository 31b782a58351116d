//! What an accepted image promises, in the words that a contract quotes. They are here and nowhere else.

use crate::text::print::Names;
use reference::image::Meeting;

/// Of what everything that is accepted is true.
pub const EVERY_ORDER: &str =
    "every order of execution of C11’s release-acquire-relaxed fragment as RC11 defines it";

/// What that means.
pub const MEANING: &str =
    "Every order: from every permitted start, after any number of steps, whichever thread takes the next one, whichever \
     of the writes that it may still see a load reads, and wherever in a word’s modification order a store may still go. \
     As in RC11, a load never reads a write that comes later in the order of execution (no load buffering); a release \
     sequence is a releasing write and the read-modify-writes that follow it, as in C++20. The machine has relaxed and \
     acquiring loads, relaxed and releasing stores, and read-modify-writes that acquire and release; it has no fences, \
     no non-atomic and no sequentially consistent accesses. Nothing is said of orders that C11 allows beyond RC11, and \
     nothing of whether a thread ever gets to its last point.";

/// What is true of every assertion of an accepted image.
pub fn assertions() -> String {
    format!("In {EVERY_ORDER}, each assertion is true whenever its thread is at its point.")
}

/// A claim of an accepted image.
pub fn claim(names: &Names, meeting: &Meeting) -> String {
    let Meeting { thread, point, other_thread, other_point } = *meeting;
    let (one, other) = (names.thread(thread), names.thread(other_thread));
    match (names.label(thread, point), names.label(other_thread, other_point)) {
        (Some(label), Some(same)) if label == same => {
            format!("{one} and {other} are never both at {label}.")
        }
        _ => format!("{} are never together.", names.both(meeting)),
    }
}
