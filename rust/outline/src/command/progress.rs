//! How far a long task has come, on a terminal only.

use std::io::{IsTerminal, Stderr, Write};
use std::sync::Mutex;

/// A line on the terminal that is cleared in the end; without a terminal nothing at all is written.
pub struct Progress<W: Write> {
    /// Where the line is drawn, and how wide it was at most.
    drawn: Option<Mutex<(W, usize)>>,
}

impl Progress<Stderr> {
    /// On standard error, if that is a terminal.
    pub fn on_terminal() -> Progress<Stderr> {
        let out = std::io::stderr();
        let terminal = out.is_terminal();
        Progress::new(out, terminal)
    }
}

impl<W: Write> Progress<W> {
    pub fn new(out: W, terminal: bool) -> Progress<W> {
        Progress { drawn: terminal.then(|| Mutex::new((out, 0))) }
    }

    pub fn at(&self, done: usize, all: usize) {
        let Some(drawn) = &self.drawn else { return };
        let (out, width) = &mut *drawn.lock().expect("no thread panics");
        let line = format!("{done} of {all} ");
        *width = line.len().max(*width);
        // A line that cannot be drawn is no reason to end the task.
        let _ = write!(out, "\r{line}").and_then(|()| out.flush());
    }
}

impl<W: Write> Drop for Progress<W> {
    fn drop(&mut self) {
        let Some(drawn) = &self.drawn else { return };
        let Ok(mut drawn) = drawn.lock() else { return };
        let (out, width) = &mut *drawn;
        if *width > 0 {
            let _ = write!(out, "\r{:width$}\r", "").and_then(|()| out.flush());
        }
    }
}

#[cfg(test)]
mod tests {
    use super::*;

    /// What is written while the task goes through these numbers, and what is written in all.
    fn written(terminal: bool, steps: &[(usize, usize)]) -> (String, String) {
        let mut out = Vec::new();
        let progress = Progress::new(&mut out, terminal);
        steps.iter().for_each(|(done, all)| progress.at(*done, *all));
        let so_far = progress.drawn.as_ref().map(|drawn| drawn.lock().unwrap().0.clone());
        drop(progress);
        let text = |bytes: Vec<u8>| String::from_utf8(bytes).expect("text");
        (text(so_far.unwrap_or_default()), text(out))
    }

    /// What a terminal shows of a line after these characters, and where its mark stands.
    fn shown(text: &str) -> (String, usize) {
        let (mut line, mut at) = (Vec::new(), 0);
        for c in text.chars() {
            if c == '\r' {
                at = 0;
                continue;
            }
            line.resize(line.len().max(at + 1), ' ');
            line[at] = c;
            at += 1;
        }
        (line.iter().collect::<String>().trim_end().to_string(), at)
    }

    #[test]
    fn nothing_is_drawn_without_a_terminal() {
        assert_eq!(written(false, &[(1, 2), (2, 2)]), (String::new(), String::new()));
    }

    #[test]
    fn nothing_is_drawn_of_a_task_that_never_moves() {
        assert_eq!(written(true, &[]).1, "");
    }

    #[test]
    fn one_line_is_drawn_over_and_over_and_cleared_in_the_end() {
        let long = (usize::MAX - 1, usize::MAX);
        for steps in [&[(1, 3), (2, 3), (3, 3)][..], &[(9, 10), (10, 10)], &[long]] {
            let (so_far, in_all) = written(true, steps);
            let (done, all) = steps.last().expect("some");
            assert_eq!(shown(&so_far).0, format!("{done} of {all}"));
            assert_eq!(shown(&in_all), (String::new(), 0));
            assert!(!in_all.contains('\n'));
        }
    }
}
