//! `serve`: calls of several callers to one service, in their order.

use crate::command::input::{called, mistake, mistakes, read, read_bytes, Input, Subject};
use crate::command::options::Options;
use crate::command::output::{Kind, Target};
use crate::command::replay::read_trace;
use crate::command::service::{
    bill_for, open_service, serve_check, serve_handover, serve_replay, serve_replay_handover,
    serve_trim, SERVER,
};
use crate::command::{bill, json, print, words, Done, Status};
use crate::text::compare::compared;
use crate::text::counted;
use crate::text::lex::Mistake;
use crate::text::parse_session::{session, Asked, Session, Wish};
use crate::text::print::Names;
use reference::checker::verdict::{Verdict, RECORD_BYTES};
use reference::checker::{accepted, decode};
use reference::handover::{permitted, Across, Traces};
use reference::replay::{start, ANSWER, MOST_WRITES, WRITE_BYTES};
use reference::service::{Run, CALLERS, NO_RIGHT, NO_SUCH_CALLER, SERVICE};
use std::path::Path;

/// What a call came to.
struct Answered {
    code: u16,
    words: String,
}

pub fn run(args: &[&str]) -> Done {
    let options = Options::read(args, &["--json"])?;
    let file = options.file()?;
    let text = match read(file)? {
        Input::Text(text) => text,
        Input::Image(bytes) if bytes.is_empty() => String::new(),
        Input::Image(_) => return Err(format!("{}: these are no calls", called(file))),
    };
    let session = session(&text).map_err(|all| mistakes(file, &text, &all))?;
    let materials = materials(&session, file).map_err(|all| mistakes(file, &text, &all))?;
    let mut service = opened(&session);
    let (mut out, mut worst) = (String::new(), Status::Accepted);
    for (asked, material) in session.calls.iter().zip(&materials) {
        let answered = answered(&mut service, asked, material)?;
        if answered.code != 0 {
            worst = Status::Refused;
        }
        let json = options.json;
        out += &if json { as_json(asked, &answered) } else { as_words(asked, &answered) + "\n" };
    }
    if !options.json {
        out += &format!("billed images: {}   ({SERVER})\n", numbers(&service));
    }
    print(out)?;
    Ok(worst)
}

/// The numbers of the callers that have a right or a number.
fn numbers(service: &[u32; SERVICE]) -> String {
    let (rights, billed) = service.split_at(CALLERS);
    let callers = (1..).zip(rights.iter().zip(billed));
    let used = callers.filter(|(_, (&rights, &billed))| rights != 0 || billed != 0);
    let told = used.map(|(caller, (_, billed))| format!("caller {caller}: {billed}"));
    told.collect::<Vec<String>>().join(", ")
}

/// The service with the rights and the numbers that the text gives.
fn opened(session: &Session) -> [u32; SERVICE] {
    let mut service = [0; SERVICE];
    open_service(&session.rights, &mut service);
    service[CALLERS..].copy_from_slice(&session.billed);
    service
}

/// What a call is about: an image, and for a handover the new one, the table, and traces; and where it writes.
struct Material {
    target: Option<Target>,
    subject: Subject,
    new: Option<Subject>,
    table: Vec<u8>,
    traces: Vec<Vec<u8>>,
}

impl Material {
    fn of(asked: &Asked, folder: &Path) -> Result<Material, String> {
        let place = |file: &str| folder.join(file).to_string_lossy().into_owned();
        let bytes = |file: &str| read_bytes(&place(file));
        let subject = Subject::of(&place(&asked.file))?;
        let (new, table, files) = match &asked.wish {
            Wish::Check | Wish::Trim(_) | Wish::Bill(_) => (None, None, &[][..]),
            Wish::Handover { new, table } => (Some(new), Some(table), &[][..]),
            Wish::Replay { trace } => (None, None, std::slice::from_ref(trace)),
            Wish::Across { new, table, traces } => (Some(new), Some(table), &traces[..]),
        };
        let new = new.map(|new| Subject::of(&place(new))).transpose()?;
        let table = table.map_or(Ok(Vec::new()), |table| bytes(table))?;
        let files: Vec<String> = files.iter().map(|file| place(file)).collect();
        let traces = traces(&subject, new.as_ref(), &table, &files)?;
        Ok(Material { target: None, subject, new, table, traces })
    }
}

/// The traces of a call, whose words have to be what the machine does: the first under the old code, the second under the new
/// one, each in its own code's names. What is not accepted or not permitted is not run, so its words are not looked at.
fn traces(
    old: &Subject,
    new: Option<&Subject>,
    table: &[u8],
    files: &[String],
) -> Result<Vec<Vec<u8>>, String> {
    let mut state = accepted(&old.bytes).map(|image| start(&image.program.header, &[]));
    let mut traces = Vec::new();
    for (file, subject) in files.iter().zip([Some(old), new].into_iter().flatten()) {
        let names = names(subject);
        let trace = read_trace(file, &names)?;
        if let (Some(first), Ok(image)) = (&state, decode(&subject.bytes)) {
            let end = compared(&image.program, &names, first, &trace);
            let end = end.map_err(|differs| mistake(file, "", &differs))?;
            let next = new.and_then(|new| permitted(&old.bytes, &new.bytes, table).ok());
            state = next.and_then(|handover| Some(handover.mapped(&end?)));
        }
        traces.push(trace.bytes);
    }
    Ok(traces)
}

/// The names that a trace may use, none if the image is not in order.
fn names(subject: &Subject) -> Names {
    match decode(&subject.bytes) {
        Ok(image) => subject.names(&image.program),
        Err(_) => Names::default(),
    }
}

/// What the calls are about; each file that cannot be used is a mistake of its line, and then nothing is served.
fn materials(session: &Session, file: &str) -> Result<Vec<Material>, Vec<Mistake>> {
    // Files are named as seen from the folder of the text.
    let folder = Path::new(file).parent().unwrap_or(Path::new(""));
    let place = |file: &str| folder.join(file).to_string_lossy().into_owned();
    let named = session.calls.iter().flat_map(Asked::files).map(place);
    let inputs: Vec<String> = named.chain([file.to_string()]).collect();
    let (mut materials, mut mistakes) = (Vec::<Material>::new(), Vec::new());
    for asked in &session.calls {
        let made = Material::of(asked, folder).and_then(|material| {
            let target = asked.target().map(|target| free(&place(target), &inputs, &materials));
            Ok(Material { target: target.transpose()?, ..material })
        });
        match made {
            Ok(material) => materials.push(material),
            Err(text) => mistakes.push(Mistake { line: asked.place, text }),
        }
    }
    match mistakes.is_empty() {
        true => Ok(materials),
        false => Err(mistakes),
    }
}

/// A place for a trimmed image that is no file of any call, and at which no call before it writes.
fn free(name: &str, inputs: &[String], before: &[Material]) -> Result<Target, String> {
    let inputs: Vec<&str> = inputs.iter().map(String::as_str).collect();
    let target = Target::of(name, Kind::Image, &inputs)?;
    let mut others = before.iter().filter_map(|material| material.target.as_ref());
    match others.any(|other| other.is(&target)) {
        true => Err(format!("{name}: a call before this one writes it")),
        false => Ok(target),
    }
}

fn answered(service: &mut [u32], asked: &Asked, material: &Material) -> Result<Answered, String> {
    let (caller, subject) = (asked.caller, &material.subject);
    let image = &subject.bytes[..];
    let new = material.new.as_ref().map_or(&[][..], |new| &new.bytes);
    let (code, words) = match &asked.wish {
        Wish::Check => checked(service, caller, subject),
        Wish::Trim(_) => {
            let mut out = vec![0; image.len()];
            let answer = serve_trim(service, caller, image, &mut out);
            if let Some(target) = material.target.as_ref().filter(|_| answer.code == 0) {
                target.write(&out[..answer.length])?;
            }
            (answer.code, format!("{} bytes of {}", answer.length, image.len()))
        }
        Wish::Bill(tariff) => {
            let answer = bill_for(service, caller, image, tariff);
            let names = accepted(image).map(|image| subject.names(&image.program).threads);
            (answer.code, bill::in_a_line(&answer, &names.unwrap_or_default()))
        }
        Wish::Handover { .. } => {
            (serve_handover(service, caller, image, new, &material.table), "PERMITTED".into())
        }
        Wish::Replay { .. } | Wish::Across { .. } => replayed(service, caller, material, new),
    };
    Ok(Answered { code, words: refusal(asked, code).unwrap_or(words) })
}

/// The code of a replay, and how far it came. Open registers begin at 0.
fn replayed(service: &[u32], caller: usize, material: &Material, new: &[u8]) -> (u16, String) {
    let (mut table, mut answer) = ([0; MOST_WRITES * WRITE_BYTES], [0; ANSWER]);
    let old = &material.subject.bytes[..];
    let code = match &material.traces[..] {
        [first, second] => {
            let traces = Traces { first, second, given: &[] };
            let run = Across { old, new, points: &material.table, traces };
            serve_replay_handover(service, caller, &run, &mut table, &mut answer)
        }
        traces => {
            let run = Run { image: old, trace: &traces[0], given: &[] };
            serve_replay(service, caller, &run, &mut table, &mut answer)
        }
    };
    let names = names(&material.subject);
    // Across a handover the points are those of the new code, and the names those of the old.
    let at = |(thread, name, point): (u8, &String, u8)| match material.traces.len() {
        1 => names.at(thread, point),
        _ => format!("{name} at point {point}"),
    };
    let points = (1..).zip(&names.threads).zip(&answer[1..]);
    let points = points.map(|((thread, name), point)| at((thread, name, *point as u8)));
    let registers = names.registers.iter().zip(&answer[5..]);
    let registers = registers.map(|(name, value)| format!("{name} = {value}"));
    let state: Vec<String> = points.chain(registers).collect();
    let end = if code == 0 { "" } else { ", the next one is refused" };
    (code, format!("{}{end} (code {code}); {}", counted(answer[0], "step"), state.join(", ")))
}

/// The verdict's code, and the verdict in words.
fn checked(service: &[u32], caller: usize, subject: &Subject) -> (u16, String) {
    let mut record = [0; RECORD_BYTES];
    let code = serve_check(service, caller, &subject.bytes, &mut record);
    let verdict = Verdict::of_record(&record);
    match verdict.code == code {
        true => (code, words::verdict(&verdict, subject.source(), subject.claims())),
        false => (code, String::new()),
    }
}

/// Why a call that is no check was not served; none if it was, or if a verdict says it.
fn refusal(asked: &Asked, code: u16) -> Option<String> {
    let caller = asked.caller;
    let reason = match (code, &asked.wish) {
        (NO_SUCH_CALLER, _) => format!("there is no caller {caller}, only 1 to 8"),
        (NO_RIGHT, wish) => format!("caller {caller} has no right to {}", right_for(wish)),
        (_, Wish::Check) | (0 | 27..=29, _) => return None,
        (24 | 30, _) => "the image is not accepted".into(),
        (32, _) => "an image is not accepted, or the two are unlike".into(),
        (33, _) => "the table is too short, too long or out of range".into(),
        (34, _) => "a line of the table does not serve".into(),
        (_, Wish::Bill(_)) => {
            format!("caller {caller} has 4294967295 billed images, and no more are counted")
        }
        _ => "the output is too short".into(),
    };
    Some(format!("NOT SERVED (code {code}): {reason}"))
}

/// The right that a call needs, as the text names it.
fn right_for(wish: &Wish) -> &'static str {
    match wish {
        Wish::Check | Wish::Trim(_) | Wish::Handover { .. } => "check",
        Wish::Replay { .. } | Wish::Across { .. } => "replay",
        Wish::Bill(_) => "bill",
    }
}

/// The call as the text names it.
fn name(wish: &Wish) -> &'static str {
    match wish {
        Wish::Check => "check",
        Wish::Trim(_) => "trim",
        Wish::Bill(_) => "bill",
        Wish::Handover { .. } => "handover",
        Wish::Replay { .. } => "replay",
        Wish::Across { .. } => "across",
    }
}

fn as_words(asked: &Asked, answered: &Answered) -> String {
    format!("{} {} {}: {}", asked.caller, name(&asked.wish), asked.file, answered.words)
}

fn as_json(asked: &Asked, answered: &Answered) -> String {
    let status = if answered.code == 0 { Status::Accepted } else { Status::Refused };
    json::answer(
        "serve",
        status,
        &[
            ("caller", asked.caller.to_string()),
            ("call", json::text(name(&asked.wish))),
            ("file", json::text(&asked.file)),
            ("code", answered.code.to_string()),
            ("words", json::text(&answered.words)),
            ("server", json::text(SERVER)),
        ],
    )
}
