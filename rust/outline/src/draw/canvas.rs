//! Shapes and texts of a drawing. All letters are monospaced, so that widths are known without a font at hand.

use crate::markup::{el, Element};

/// The advance of a letter of 13 pixels, rounded up; the height of a line of text.
pub const LETTER: i32 = 8;
pub const LINE: i32 = 18;
/// The advance of a letter of 11 pixels.
pub const SMALL: i32 = 7;

/// A place: from the left, from the top.
pub type At = (i32, i32);

/// A rectangle.
#[derive(Debug, Clone, Copy, PartialEq, Eq)]
pub struct Area {
    pub left: i32,
    pub top: i32,
    pub width: i32,
    pub height: i32,
}

impl Area {
    pub fn right(&self) -> i32 {
        self.left + self.width
    }

    pub fn bottom(&self) -> i32 {
        self.top + self.height
    }

    pub fn middle(&self) -> At {
        (self.left + self.width / 2, self.top + self.height / 2)
    }
}

/// A drawing that grows downwards. What is drawn later lies on top.
#[derive(Debug, Default)]
pub struct Canvas {
    items: Vec<Element>,
    /// The first free line below what was drawn.
    pub below: i32,
    width: i32,
}

impl Canvas {
    /// A rectangle with round corners.
    pub fn area(&mut self, area: Area, round: i32, class: &'static str) {
        let Area { left, top, width, height } = area;
        self.reaches(area.right(), area.bottom());
        let size = el("rect").with("x", left).with("y", top).with("width", width);
        let rect = size.with("height", height).with("rx", round).with("class", class);
        self.items.push(rect);
    }

    /// A text that begins at a place.
    pub fn text(&mut self, at: At, class: &'static str, text: &str) {
        self.reaches(at.0 + width(text, LETTER), at.1);
        self.items.push(place(at, class).text(text));
    }

    /// A text about a place.
    pub fn centred(&mut self, at: At, class: &'static str, text: &str) {
        self.reaches(at.0 + width(text, LETTER) / 2, at.1);
        self.items.push(place(at, class).with("text-anchor", "middle").text(text));
    }

    pub fn path(&mut self, path: String, class: &'static str, head: Option<&'static str>) {
        let path = el("path").with("d", path).with("class", class);
        self.items.push(match head {
            Some(head) => path.with("marker-end", head),
            None => path,
        });
    }

    pub fn circle(&mut self, (x, y): At, radius: i32, class: &'static str) {
        let circle = el("circle").with("cx", x).with("cy", y).with("r", radius);
        self.items.push(circle.with("class", class));
    }

    /// Makes the drawing at least this wide and high.
    pub fn reaches(&mut self, right: i32, bottom: i32) {
        self.width = self.width.max(right);
        self.below = self.below.max(bottom);
    }

    pub fn width(&self) -> i32 {
        self.width
    }

    pub fn into_items(self) -> Vec<Element> {
        self.items
    }
}

fn place((x, y): At, class: &'static str) -> Element {
    el("text").with("x", x).with("y", y).with("class", class)
}

/// The width of a text whose letters have this advance.
pub fn width(text: &str, letter: i32) -> i32 {
    text.chars().count() as i32 * letter
}

/// A text in lines of at most so many letters: cut at spaces, and where a word is too long within it.
pub fn wrapped(text: &str, most: usize) -> Vec<String> {
    let mut lines: Vec<String> = vec![String::new()];
    for word in text.split_whitespace() {
        let letters: Vec<char> = word.chars().collect();
        for piece in letters.chunks(most.max(1)) {
            let last = lines.last_mut().expect("a line is open");
            let used = last.chars().count();
            if used > 0 && used + 1 + piece.len() > most {
                lines.push(piece.iter().collect());
            } else {
                if used > 0 {
                    last.push(' ');
                }
                last.extend(piece);
            }
        }
    }
    lines
}

#[cfg(test)]
mod tests {
    use super::*;

    #[test]
    fn lines_keep_to_their_width() {
        assert_eq!(wrapped("a bb ccc dddd", 6), ["a bb", "ccc", "dddd"]);
        assert_eq!(wrapped("abcdefgh i", 3), ["abc", "def", "gh", "i"]);
        assert_eq!(wrapped("", 3), [""]);
    }

    #[test]
    fn a_canvas_holds_all_that_is_drawn() {
        let mut canvas = Canvas::default();
        canvas.area(Area { left: 10, top: 20, width: 30, height: 40 }, 4, "a");
        canvas.text((30, 5), "b", "<abcd>");
        assert_eq!((canvas.width(), canvas.below), (30 + 6 * LETTER, 60));
        let items = canvas.into_items();
        assert_eq!(items[1].written(), "<text x=\"30\" y=\"5\" class=\"b\">&lt;abcd&gt;</text>");
    }
}
