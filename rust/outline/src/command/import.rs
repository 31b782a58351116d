//! `import`: the threads of a C file as an outline with holes.

use crate::c::Refusal;
use crate::command::input::{called, mistake, read_bytes, text_of};
use crate::command::litmus::BOUNDS;
use crate::command::options::{Options, BOUND_OPTIONS};
use crate::command::output::Kind;
use crate::command::{complain, json, print, Done, Status};
use crate::import::file::File;
use crate::import::preprocess::{preprocessed, read};
use crate::import::{points, program, Imported};
use crate::text::counted;
use crate::text::lex::Mistake;

pub fn run(args: &[&str]) -> Done {
    let options = Options::read(
        args,
        &[&BOUND_OPTIONS[..], &["-o", "--threads", "--cpp", "--json"]].concat(),
    )?;
    let file = options.file()?;
    let target = options.target(Kind::Outline)?;
    let imported = Read::of(file, &options)?;
    let first = format!("# From {}; {}.\n", called(file), imported.program.fits.told());
    let text = points::written(&imported.program, &first)
        .map_err(|refusal| imported.told(file, &refusal))?;
    target.write(text.as_bytes())?;
    let lines = imported.program.lines(target.name());
    let mut out = lines.join("\n") + "\n";
    if options.json {
        let names =
            imported.program.whole.functions.iter().map(|function| json::text(&function.name));
        let members = [
            ("file", json::text(called(file))),
            ("threads", json::list(names)),
            ("range", imported.program.fits.range.to_string()),
            ("written", json::text(target.name())),
            ("told", json::texts(&lines)),
        ];
        out = json::answer("import", Status::Accepted, &members);
    }
    if target.name() == "-" {
        complain(out);
    } else {
        print(out)?;
    }
    Ok(Status::Accepted)
}

/// A C file that was read, and its program.
pub struct Read {
    text: String,
    files: Vec<String>,
    pub program: Imported,
}

impl Read {
    /// Preprocesses and reads; what is refused is told with its place.
    pub fn of(file: &str, options: &Options) -> Result<Read, String> {
        if file == "-" {
            return Err(
                "a C file is read by its name, since the compiler's preprocessor reads it".into()
            );
        }
        let text =
            text_of(read_bytes(file)?).map_err(|fault| format!("{}{fault}", called(file)))?;
        let words: Vec<&str> =
            options.cpp.iter().flat_map(|words| words.split_whitespace()).collect();
        let made = preprocessed(file, &words)?;
        let alone = |refusal: Refusal| told(file, &text, &[], &refusal);
        let tokens = read(file, &text, &made).map_err(alone)?;
        let threads: Vec<String> = options
            .threads
            .iter()
            .flat_map(|names| names.split(','))
            .map(|name| name.trim().to_string())
            .collect();
        let found = File::of(&tokens.list)
            .and_then(|read| program(&read, &threads, options.bounds(BOUNDS)));
        match found {
            Ok(program) => Ok(Read { text, files: tokens.files, program }),
            Err(refusal) => Err(told(file, &text, &tokens.files, &refusal)),
        }
    }

    /// A refusal with its place.
    pub fn told(&self, file: &str, refusal: &Refusal) -> String {
        told(file, &self.text, &self.files, refusal)
    }
}

fn told(file: &str, text: &str, files: &[String], refusal: &Refusal) -> String {
    let line = refusal.at.place;
    match files.get(usize::from(refusal.at.file)).filter(|_| refusal.at.file > 0) {
        Some(other) => format!("{other}:{line}: {}", refusal.text),
        None => mistake(file, text, &Mistake { line, text: refusal.text.clone() }),
    }
}

impl Imported {
    /// What was written, how values are known to stay, and what was not looked at.
    fn lines(&self, target: &str) -> Vec<String> {
        let functions = &self.whole.functions;
        let names: Vec<&str> = functions.iter().map(|function| function.name.as_str()).collect();
        let count: usize = functions.iter().map(|function| function.code.placed.len()).sum();
        let (threads, instructions) =
            (counted(names.len(), "thread"), counted(count, "instruction"));
        let mut lines = vec![format!("{target}: {threads} ({}), {instructions}", names.join(", "))];
        lines.push(self.fits.told());
        lines.extend(self.not_looked_at());
        lines
    }

    /// Functions that name a word and are no threads.
    pub fn not_looked_at(&self) -> Option<String> {
        let names = self.others.join(", ");
        (!names.is_empty()).then(|| format!("not looked at, though it names a word: {names}"))
    }
}
