//! `migrate`: an image of an earlier layout, or a stored set of them, in the next one.

use crate::command::input::{called, read_bytes};
use crate::command::judge::{judge, JUDGE};
use crate::command::options::Options;
use crate::command::output::{Kind, Target};
use crate::command::{complain, json, print, words, Done, Status};
use crate::migrate::{set, Step};
use crate::text::counted;

/// The step that changes no image: the lengths of a set have 32 bits.
const LENGTHS: &str = "lengths";

pub fn run(args: &[&str]) -> Done {
    let options = Options::read(args, &["-o", "--json", "--set"])?;
    let [step, file] = &options.files[..] else {
        return Err("a step and a file are wanted; see outline migrate --help".into());
    };
    let kind = if options.set { Kind::Set } else { Kind::Image };
    let target = options.target(kind)?;
    let bytes = read_bytes(file)?;
    let (bytes, said) = match options.set {
        true => one_set(step, file, &bytes)?,
        false => one_image(step, file, &bytes)?,
    };
    target.write(&bytes)?;
    let text = match options.json {
        true => as_json(file, step, bytes.len(), &said),
        false => format!("{}: {}\n{said}\n", target.name(), counted(bytes.len(), "byte")),
    };
    tell(&target, &text)?;
    Ok(Status::Accepted)
}

fn named(name: &str) -> Result<Step, String> {
    let known = Step::ALL.iter().find(|(other, _)| *other == name);
    known
        .map(|(_, step)| *step)
        .ok_or_else(|| format!("there is no step `{name}`; see outline migrate --help"))
}

/// The image after a step, and its verdict in words.
fn one_image(step: &str, file: &str, image: &[u8]) -> Result<(Vec<u8>, String), String> {
    let image =
        named(step)?.rewrite(image).map_err(|refusal| format!("{}: {refusal}", called(file)))?;
    let said = format!("{}   ({JUDGE})", words::verdict(&judge(&image), None, 0));
    Ok((image, said))
}

/// The set after a step, and what became of its images.
fn one_set(step: &str, file: &str, set: &[u8]) -> Result<(Vec<u8>, String), String> {
    let cut = || format!("{}: the set is cut short", called(file));
    if step == LENGTHS {
        let longer = set::with_long_lengths(set).ok_or_else(cut)?;
        return Ok((longer, "lengths of 32 bits".into()));
    }
    let set = set::rewrite(set, named(step)?).ok_or_else(cut)?;
    let said = told(&set);
    Ok((set.bytes, said))
}

/// How many images are rewritten, and each that is left out or has another verdict.
fn told(set: &set::Rewritten) -> String {
    let left_out = set.left_out.iter();
    let left_out =
        left_out.map(|(number, refusal)| format!("case {number} is left out: {refusal}"));
    let changed = set.afresh.iter().filter(|(_, before, after)| before != after);
    let changed = changed.map(|(number, before, after)| {
        format!("case {number}: {} is now {}", shown(before), shown(after))
    });
    let counts = format!(
        "{} rewritten, {} kept, {} left out; {} verdicts made afresh",
        set.rewritten,
        set.kept,
        set.left_out.len(),
        set.afresh.len()
    );
    left_out.chain(changed).chain([counts]).collect::<Vec<String>>().join("\n")
}

fn shown(fields: &set::Fields) -> String {
    fields.map(|field| field.to_string()).join(" ")
}

fn as_json(file: &str, step: &str, bytes: usize, words: &str) -> String {
    let members = [
        ("file", json::text(called(file))),
        ("step", json::text(step)),
        ("bytes", bytes.to_string()),
        ("words", json::text(words)),
        ("judge", json::text(JUDGE)),
    ];
    json::answer("migrate", Status::Accepted, &members)
}

/// Words go to standard output, unless the bytes go there.
fn tell(target: &Target, text: &str) -> Result<(), String> {
    if target.name() != "-" {
        return print(text);
    }
    complain(text);
    Ok(())
}
