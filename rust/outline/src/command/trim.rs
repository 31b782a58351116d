//! `trim`: an accepted image without what its obligations and claims do not rest on.

use crate::command::input::{called, Subject};
use crate::command::judge::{judge, JUDGE};
use crate::command::options::Options;
use crate::command::output::Kind;
use crate::command::trimmer::{trimmed, TRIMMER};
use crate::command::{complain, json, print, words, Done, Status};
use crate::text::counted;
use reference::checker::Verdict;
use reference::image::written::Written;

pub fn run(args: &[&str]) -> Done {
    let options = Options::read(args, &["-o", "--json"])?;
    let file = options.file()?;
    let target = options.target(Kind::Image)?;
    let subject = Subject::of(file)?;
    let Some(bytes) = trimmed(&subject.bytes) else {
        return refused(&options, file, &subject);
    };
    let verdict = judge(&bytes);
    if verdict.code != 0 {
        return Err(format!("mistake in this tool: the verdict is {verdict}"));
    }
    target.write(&bytes)?;
    let target = target.name();
    let [before, after] = [&subject.bytes, &bytes].map(|bytes| Size::of(bytes));
    let text = if options.json {
        as_json(file, &subject, &verdict, [&before, &after])
    } else {
        let said = words::verdict(&verdict, None, subject.claims());
        let dropped = before.without(&after);
        format!("{target}: {after}\n{dropped}   ({TRIMMER})\n{said}   ({JUDGE})\n")
    };
    tell(target, &text)?;
    Ok(Status::Accepted)
}

/// How much an image has.
#[derive(Debug, Clone, Copy, PartialEq, Eq)]
pub struct Size {
    pub bytes: usize,
    pub formulas: usize,
    pub lines: usize,
}

impl Size {
    /// Of an image in order.
    pub fn of(bytes: &[u8]) -> Size {
        let (formulas, lines) =
            Written::read(bytes).map_or((0, 0), |image| (image.formulas.len(), image.lines.len()));
        Size { bytes: bytes.len(), formulas, lines }
    }

    /// How much of it is gone, in words.
    fn without(&self, after: &Size) -> String {
        let gone = Size {
            bytes: self.bytes - after.bytes,
            formulas: self.formulas - after.formulas,
            lines: self.lines - after.lines,
        };
        match gone.bytes {
            0 => "nothing to drop: every line and formula is in use".into(),
            _ => format!("dropped: {gone}"),
        }
    }

    fn json(&self) -> String {
        json::object(&[
            ("bytes", self.bytes.to_string()),
            ("formulas", self.formulas.to_string()),
            ("lines", self.lines.to_string()),
        ])
    }
}

impl std::fmt::Display for Size {
    fn fmt(&self, out: &mut std::fmt::Formatter) -> std::fmt::Result {
        let all = [(self.bytes, "byte"), (self.formulas, "formula"), (self.lines, "line")];
        out.write_str(&all.map(|(number, thing)| counted(number, thing)).join(", "))
    }
}

/// Says why nothing is written, with the verdict.
fn refused(options: &Options, file: &str, subject: &Subject) -> Done {
    let verdict = judge(&subject.bytes);
    let said = words::verdict(&verdict, subject.source(), subject.claims());
    let file = called(file);
    if options.json {
        let mut all = vec![("file", json::text(file))];
        all.extend(json::verdict(&verdict, &said, subject.source()));
        let text = json::answer("trim", Status::Refused, &all);
        tell(options.target.as_deref().unwrap_or_default(), &text)?;
    } else {
        complain(format!("{file}: {said}   ({JUDGE})\n"));
        complain(format!(
            "{file}: only an accepted image is trimmed (code 24); nothing is written\n"
        ));
    }
    Ok(Status::Refused)
}

fn as_json(file: &str, subject: &Subject, verdict: &Verdict, sizes: [&Size; 2]) -> String {
    let mut all = vec![("file", json::text(called(file)))];
    all.extend(json::verdict(verdict, &words::verdict(verdict, None, subject.claims()), None));
    all.push(("before", sizes[0].json()));
    all.push(("after", sizes[1].json()));
    all.push(("trimmer", json::text(TRIMMER)));
    json::answer("trim", Status::Accepted, &all)
}

/// Words go to standard output, unless the image goes there.
fn tell(target: &str, text: &str) -> Result<(), String> {
    if target != "-" {
        return print(text);
    }
    complain(text);
    Ok(())
}
