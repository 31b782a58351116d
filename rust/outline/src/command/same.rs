//! `same`: is the program of an image the program of a C file, instruction by instruction?

use crate::c::Refusal;
use crate::command::explore::Subject;
use crate::command::import::Read;
use crate::command::input::{called, read, Input};
use crate::command::judge::{judge, JUDGE};
use crate::command::options::{Options, BOUND_OPTIONS};
use crate::command::{json, print, words, Done, Status};
use crate::same::{difference, Difference};
use crate::text::counted;
use crate::text::parse_source::parse_all;
use reference::image::written::Written;

pub fn run(args: &[&str]) -> Done {
    let options =
        Options::read(args, &[&BOUND_OPTIONS[..], &["--threads", "--cpp", "--json"]].concat())?;
    let [file, image] = &options.files[..] else {
        return Err("a C file and an image or an outline are wanted; see outline --help".into());
    };
    let read = Read::of(file, &options)?;
    let subject = Subject::of(image)?;
    let judged = verdict(image)?;
    let (same, mut lines) = compared(file, image, &read, &subject);
    lines.extend(judged.iter().map(|(_, words)| format!("{words}   ({JUDGE})")));
    lines.extend(read.program.not_looked_at());
    let accepted = judged.map(|(accepted, _)| accepted);
    let status = if same && accepted != Some(false) { Status::Accepted } else { Status::Refused };
    if options.json {
        let members = [
            ("file", json::text(called(file))),
            ("image", json::text(called(image))),
            ("same", same.to_string()),
            ("accepted", accepted.map_or("null".into(), |yes| yes.to_string())),
            ("judge", json::text(JUDGE)),
            ("told", json::texts(&lines)),
        ];
        print(json::answer("same", status, &members))?;
    } else {
        print(lines.join("\n") + "\n")?;
    }
    Ok(status)
}

/// The verdict on an image; an outline is not judged here.
fn verdict(image: &str) -> Result<Option<(bool, String)>, String> {
    let Input::Image(bytes) = read(image)? else { return Ok(None) };
    let verdict = judge(&bytes);
    let claims = Written::read(&bytes).map_or(0, |image| image.claims.len());
    Ok(Some((verdict.code == 0, words::verdict(&verdict, None, claims))))
}

/// Whether the programs are the same, and what is told of it.
fn compared(file: &str, image: &str, read: &Read, subject: &Subject) -> (bool, Vec<String>) {
    let whole = &read.program.whole;
    let range = subject.program.header.counts.range;
    match difference(whole, &subject.program) {
        Err(difference) => (false, parted(file, image, read, subject, &difference)),
        Ok(_) if read.program.fits.range > range => {
            let told = format!("DIFFERENT: values of the file are not known to stay within the image's range, 0 to {}", range - 1);
            (false, vec![told, read.program.fits.told()])
        }
        Ok(auxiliary) => {
            let count: usize = subject.program.threads.iter().map(Vec::len).sum();
            let (threads, all) =
                (counted(whole.functions.len(), "thread"), counted(count, "instruction"));
            let mut lines = vec![format!("SAME: {all} of {threads}"), read.program.fits.told()];
            let names: Vec<&str> =
                auxiliary.iter().map(|number| subject.names.register(*number)).collect();
            if !names.is_empty() {
                lines.push(format!(
                    "auxiliary registers, which no instruction reads, are left out: {}",
                    names.join(", ")
                ));
            }
            (true, lines)
        }
    }
}

/// The first difference with both places.
fn parted(
    file: &str,
    image: &str,
    read: &Read,
    subject: &Subject,
    found: &Difference,
) -> Vec<String> {
    let refusal = Refusal::new(found.at, format!("DIFFERENT: {}", found.text));
    let mut lines = vec![read.told(file, &refusal)];
    if let Some((thread, point)) = found.place {
        let names = &subject.names;
        let instruction = subject.program.instruction(thread, point);
        let shown = instruction.map_or("its end".into(), |one| names.instruction(thread, one));
        let line = line_of(image, thread, point).map_or(String::new(), |line| format!(":{line}"));
        lines.push(format!("{}{line}: {}: {shown}", called(image), names.at(thread, point)));
    }
    lines
}

/// The line of a point, where there is a text.
fn line_of(image: &str, thread: u8, point: u8) -> Option<usize> {
    let Ok(Input::Text(text)) = read(image) else { return None };
    let source = parse_all(&text).ok()?;
    Some(source.points.get(usize::from(thread) - 1)?.get(usize::from(point))?.line.line)
}
