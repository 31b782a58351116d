//! The command `fmt`: files in place, standard input to standard output.

use super::formatted;
use crate::command::input::{called, mistakes, read, Input};
use crate::command::names::path;
use crate::command::options::Options;
use crate::command::output::replaced;
use crate::command::{complain, json, print, print_bytes, Done, Status};

pub fn run(args: &[&str]) -> Done {
    let options = Options::read(args, &["--check", "--json"])?;
    if options.files.is_empty() {
        return Err("a file is wanted; see outline --help".into());
    }
    let mut worst = Status::Accepted;
    for file in &options.files {
        worst = worst.max(one(file, &options)?);
    }
    Ok(worst)
}

/// Formats a file; with `--check` it is only told whether that would change it. A file that cannot be read or written is
/// told, and the others are done all the same.
fn one(file: &str, options: &Options) -> Done {
    let done = text_of(file).and_then(|(old, new)| {
        let changed = old != new;
        match (options.check, file) {
            (true, _) => {}
            (false, "-") => print_bytes(new.as_bytes())?,
            (false, _) if changed => replaced(&path(file), new.as_bytes())?,
            _ => {}
        }
        Ok(changed)
    });
    match done {
        Ok(changed) => tell(file, changed, options),
        Err(told) if options.json => {
            print(json::trouble(&["fmt", file], &told)).map(|()| Status::Unusable)
        }
        Err(told) => {
            complain(told + "\n");
            Ok(Status::Unusable)
        }
    }
}

/// The text of a file, before and behind.
fn text_of(file: &str) -> Result<(String, String), String> {
    let Input::Text(old) = read(file)? else {
        return Err(format!("{}: this is an image, not an outline", called(file)));
    };
    let new = formatted(&old).map_err(|all| mistakes(file, &old, &all))?;
    Ok((old, new))
}

/// Of standard input the text itself goes to standard output, and what is told to standard error.
fn tell(file: &str, changed: bool, options: &Options) -> Done {
    let status = if changed && options.check { Status::Refused } else { Status::Accepted };
    let word = match (changed, options.check) {
        (true, true) => "would be formatted",
        (true, false) => "formatted",
        (false, _) => "unchanged",
    };
    let members = [("file", json::text(called(file))), ("changed", changed.to_string())];
    let told = match options.json {
        true => json::answer("fmt", status, &members),
        false => format!("{}: {word}\n", called(file)),
    };
    match file == "-" && !options.check {
        true => complain(told),
        false => print(told)?,
    }
    Ok(status)
}
