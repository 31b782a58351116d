//! `show`: the verdict first, then the image as text. Nothing is repaired.

use crate::command::input::{called, Subject};
use crate::command::judge::{judge, JUDGE};
use crate::command::options::Options;
use crate::command::{json, print, words, Done, Status};
use crate::image;
use crate::text::show;

pub fn run(words: &[&str]) -> Done {
    let options = Options::read(words, &["--json"])?;
    let file = options.file()?;
    let subject = Subject::of(file)?;
    let verdict = judge(&subject.bytes);
    let said = words::verdict(&verdict, None, subject.claims());
    let text = match image::read(&subject.bytes) {
        Ok(image) => show::show(&image),
        Err(_) => String::new(),
    };
    let status = if verdict.code == 0 { Status::Accepted } else { Status::Refused };
    if options.json {
        let mut all = vec![("file", json::text(called(file)))];
        all.extend(json::verdict(&verdict, &said, subject.source()));
        all.push(("text", json::text(&text)));
        print(json::answer("show", status, &all))?;
        return Ok(status);
    }
    print(format!("# {said}\n# {verdict}   ({JUDGE})\n{text}"))?;
    Ok(status)
}
