//! `check`: judges images and outlines, many at once.

use crate::command::gather::{gathered, Gathered};
use crate::command::input::{read, Input, Subject};
use crate::command::json::{self, Member};
use crate::command::judge::{judge, INDEPENDENT, JUDGE};
use crate::command::options::Options;
use crate::command::progress::Progress;
use crate::command::spread::spread;
use crate::command::{interrupt, print, words, Done, Status};
use crate::further::Further;
use reference::checker::rules::Rules;
use reference::checker::Verdict;

/// One file judged.
struct Verdicts {
    verdict: Verdict,
    members: Vec<Member>,
    words: String,
    /// What further rules say, where they are asked for and the verdict refuses, and whether all is met by them.
    further: Option<(String, bool)>,
    /// Were further rules asked for?
    asked: bool,
}

/// What came of a file, or why there is nothing.
type Judged = Result<Verdicts, String>;

pub fn run(words: &[&str]) -> Done {
    let options = Options::read(words, &["--json", "--further"])?;
    let files = gathered(&options.files);
    if files.is_empty() {
        return Err("no file to judge; see outline --help".into());
    }
    interrupt::watch();
    let judged = judge_all(&files, options.rules());
    let mut out = String::new();
    for (Gathered { file, .. }, judged) in files.iter().zip(&judged) {
        out += &if options.json { as_json(file, judged) } else { as_words(file, judged) + "\n" };
    }
    let count = |wanted: Status| judged.iter().filter(|j| status(j) == wanted).count();
    if files.len() > 1 && !options.json {
        let (yes, no) = (count(Status::Accepted), count(Status::Refused));
        let not = count(Status::Unusable);
        let all = files.len();
        let beyond = match count(Status::Further) {
            0 => String::new(),
            n => format!("{n} without a verdict by the published rules, "),
        };
        out += &format!(
            "{all} files: {yes} accepted, {beyond}{no} refused, {not} not judged ({JUDGE})\n"
        );
    }
    print(out)?;
    Ok(judged.iter().map(status).max().expect("there is a file"))
}

/// All files, spread over the cores; answers stand in the order of the files.
fn judge_all(files: &[Gathered], rules: Rules) -> Vec<Judged> {
    let cores = std::thread::available_parallelism().map_or(1, |n| n.get());
    let progress = (files.len() > 1).then(Progress::on_terminal);
    let told = |done: usize| progress.iter().for_each(|line| line.at(done, files.len()));
    spread(files, cores, |file| judge_one(file, rules), told)
}

/// Whatever happens with one file, the others are judged.
fn judge_one(gathered: &Gathered, rules: Rules) -> Judged {
    if let Some(fault) = &gathered.fault {
        return Err(fault.clone());
    }
    if interrupt::is_noted() {
        return Err("interrupted before it was looked at".into());
    }
    let judged = std::panic::catch_unwind(|| judged(&gathered.file, rules));
    judged.unwrap_or_else(|_| Err("mistake in this tool: it could not go on with this file".into()))
}

fn judged(file: &str, rules: Rules) -> Judged {
    let input = read(file)?;
    let asked = rules == Rules::WithFurther;
    if asked && matches!(input, Input::Image(_)) {
        return Err(
            "an image has lines by published rules only: it is judged without `--further`".into()
        );
    }
    let subject = Subject::made_by(rules, file, &input)?;
    let verdict = judge(&subject.bytes);
    let words = words::verdict(&verdict, subject.source(), subject.claims());
    let mut members = json::verdict(&verdict, &words, subject.source());
    let source = subject.source().filter(|_| asked && verdict.code != 0);
    let further = source.map(Further::of).transpose().map_err(|e| e.to_string())?;
    if asked {
        members.push(("further", further.as_ref().map_or("null".into(), json::further)));
    }
    let found = further.filter(|further| !further.judgement.used.is_empty());
    let further = found.map(|further| (further.words(), further.is_accepted()));
    Ok(Verdicts { verdict, members, words, further, asked })
}

fn status(judged: &Judged) -> Status {
    match judged {
        Ok(found) if found.verdict.code == 0 => Status::Accepted,
        Ok(Verdicts { further: Some((_, true)), .. }) => Status::Further,
        Ok(_) => Status::Refused,
        Err(_) => Status::Unusable,
    }
}

/// What is no verdict says so first.
fn as_words(file: &str, judged: &Judged) -> String {
    let found = match judged {
        Ok(found) => found,
        Err(text) => return format!("{file}: NOT JUDGED: {text}"),
    };
    let (verdict, words) = (&found.verdict, &found.words);
    match &found.further {
        Some((further, _)) => {
            let first = format!("{file}: {further}   ({INDEPENDENT})");
            format!("{first}\n  by the published rules: {words}\n  {verdict}   ({JUDGE})")
        }
        None => {
            let alone = match (found.asked, verdict.code) {
                (false, _) => "",
                (true, 0) => "\n  by the published rules alone: no line goes by a further rule",
                (true, _) => "\n  further rules meet nothing more",
            };
            format!("{file}: {words}\n  {verdict}   ({JUDGE}){alone}")
        }
    }
}

fn as_json(file: &str, judged: &Judged) -> String {
    let mut all = vec![("file", json::text(file))];
    match judged {
        Ok(found) => all.extend(found.members.iter().cloned()),
        Err(text) => {
            all.push(("error", json::text(text)));
            all.push(("mistakes", json::mistakes(&[file], text)));
        }
    }
    json::answer("check", status(judged), &all)
}
