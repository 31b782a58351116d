//! Files: outlines or images, told apart by what is in them.

use crate::build::{build, Built};
use crate::command::infer::filled;
use crate::command::names::path;
use crate::image::to_bytes;
use crate::text::counted;
use crate::text::lex::{Mistake, Place};
use crate::text::parse_source::parse_all;
use crate::text::print::Names;
use crate::text::source::Source;
use reference::checker::rules::Rules;
use reference::image::written::Written;
use reference::image::Program;
use std::io::Read;
use std::path::Path;

/// What a file holds.
pub enum Input {
    Image(Vec<u8>),
    Text(String),
}

/// No file that is read is longer: an image has at most 262,144 bytes, and its text some megabytes.
const MOST_BYTES: u64 = 16 << 20;

/// Reads a file as an outline or an image; `-` is standard input.
pub fn read(file: &str) -> Result<Input, String> {
    of_bytes(file, read_bytes(file)?)
}

/// The bytes of a file. One that is too long is not read to its end.
pub fn read_bytes(file: &str) -> Result<Vec<u8>, String> {
    let mut bytes = Vec::new();
    let (most, name) = (MOST_BYTES + 1, called(file));
    let read = match file {
        "-" => std::io::stdin().lock().take(most).read_to_end(&mut bytes),
        _ => std::fs::File::open(path(file)).and_then(|f| f.take(most).read_to_end(&mut bytes)),
    };
    read.map_err(|e| format!("{name}: {e}"))?;
    match bytes.len() as u64 > MOST_BYTES {
        true => Err(format!("{name}: longer than 16 MiB, and no outline, image or trace is")),
        false => Ok(bytes),
    }
}

/// Whether a file is an outline by its name.
pub fn is_outline(file: &str) -> bool {
    has_extension(file, "outline")
}

/// Whether a file is an image by its name.
pub fn is_image(file: &str) -> bool {
    has_extension(file, "image")
}

fn has_extension(file: &str, wanted: &str) -> bool {
    let found = Path::new(file).extension();
    found.is_some_and(|found| found.eq_ignore_ascii_case(wanted))
}

/// What the bytes of a file are. Every image has a byte 0 in its first record, and no text has one.
pub fn of_bytes(file: &str, bytes: Vec<u8>) -> Result<Input, String> {
    let (is_outline, zero) = (is_outline(file), bytes.iter().position(|&byte| byte == 0));
    if is_image(file) || !is_outline && (bytes.is_empty() || zero.is_some() && !is_utf16(&bytes)) {
        return Ok(Input::Image(bytes));
    }
    text_of(bytes).map(Input::Text).map_err(|fault| format!("{}{fault}", called(file)))
}

/// The marks that UTF-16 texts begin with; no image begins with them.
fn is_utf16(bytes: &[u8]) -> bool {
    bytes.starts_with(&[0xFF, 0xFE]) || bytes.starts_with(&[0xFE, 0xFF])
}

/// A text in UTF-8, without the mark that some programs put in front; or what is wrong, behind the file's name.
pub fn text_of(bytes: Vec<u8>) -> Result<String, String> {
    if bytes.is_empty() {
        return Err(": the file is empty".into());
    }
    if is_utf16(&bytes) {
        return Err(": this text is UTF-16, and UTF-8 is wanted".into());
    }
    if let Some(at) = bytes.iter().position(|&byte| byte == 0) {
        return Err(format!("{}: a byte 0 stands in this text", place(&bytes[..at])));
    }
    let bytes = bytes.strip_prefix(b"\xEF\xBB\xBF").map(<[u8]>::to_vec).unwrap_or(bytes);
    String::from_utf8(bytes).map_err(|error| {
        let at = error.utf8_error().valid_up_to();
        let bytes = error.into_bytes();
        format!("{}: the byte 0x{:02X} here is no UTF-8", place(&bytes[..at]), bytes[at])
    })
}

/// Where a text goes on behind these bytes, as `:LINE:COLUMN`.
fn place(before: &[u8]) -> String {
    let line = before.iter().filter(|&&byte| byte == b'\n').count() + 1;
    let last = before.rsplit(|&byte| byte == b'\n').next().unwrap_or_default();
    format!(":{line}:{}", String::from_utf8_lossy(last).chars().count() + 1)
}

/// The file in messages.
pub fn called(file: &str) -> &str {
    if file == "-" {
        "standard input"
    } else {
        file
    }
}

/// An outline that was built, or an image as it is.
pub struct Subject {
    pub bytes: Vec<u8>,
    /// With an outline its source, whose names and lines messages use.
    pub outline: Option<(Source, Built)>,
}

impl Subject {
    /// Reads and builds; open obligations are left to the verdict.
    pub fn of(file: &str) -> Result<Subject, String> {
        Subject::made(file, &read(file)?)
    }

    /// Builds what was read from a file.
    pub fn made(file: &str, input: &Input) -> Result<Subject, String> {
        Subject::made_by(Rules::Published, file, input)
    }

    /// As `made`; holes are filled by these rules, and what is built goes by the published ones.
    pub fn made_by(rules: Rules, file: &str, input: &Input) -> Result<Subject, String> {
        match input {
            Input::Image(bytes) => Ok(Subject { bytes: bytes.clone(), outline: None }),
            Input::Text(text) => {
                let mut source = parse_all(text).map_err(|all| mistakes(file, text, &all))?;
                source.rules = rules;
                let mut source = filled(source)
                    .map_err(|(said, _)| format!("{}: {}", called(file), said.join("\n")))?;
                source.rules = Rules::Published;
                let built = build(&source).map_err(|e| mistake(file, text, &e))?;
                let bytes = to_bytes(&built.image).map_err(|e| format!("{}: {e}", called(file)))?;
                Ok(Subject { bytes, outline: Some((source, built)) })
            }
        }
    }

    /// Its names, or those that `show` gives.
    pub fn names(&self, program: &Program) -> Names {
        match &self.outline {
            Some((source, _)) => source.names.clone(),
            None => Names::of(program),
        }
    }

    /// How many claims the image has.
    pub fn claims(&self) -> usize {
        Written::read(&self.bytes).map_or(0, |image| image.claims.len())
    }

    pub fn source(&self) -> Option<&Source> {
        self.outline.as_ref().map(|(source, _)| source)
    }
}

/// So many characters of a line are told.
const LONG: usize = 160;

/// A mistake with its file and place, the source line and a mark under the place.
pub fn mistake(file: &str, text: &str, e: &Mistake) -> String {
    let Place { line, column } = e.line;
    let file = called(file);
    let source = text.lines().nth(line.saturating_sub(1)).unwrap_or("").trim_end();
    if column == 0 {
        return format!("{file}:{line}: {}", e.text);
    }
    // Of a long line the part around the place is told.
    let left_out = (column - 1).saturating_sub(LONG / 2);
    let source: String = source.chars().skip(left_out).take(LONG).collect();
    // A tab stays a tab, so that the mark stands where the place does.
    let before = source.chars().take(column - 1 - left_out);
    let pad: String = before.map(|c| if c == '\t' { c } else { ' ' }).collect();
    let (first, more) = e.text.split_once('\n').unwrap_or((&e.text, ""));
    let told = format!("{file}:{line}:{column}: {first}\n  | {source}\n  | {pad}^\n{more}");
    told.trim_end().to_string()
}

/// So many mistakes are told; whoever has mended them sees the others.
const MOST_TOLD: usize = 20;

/// The mistakes of a text.
pub fn mistakes(file: &str, text: &str, all: &[Mistake]) -> String {
    let told = all.iter().take(MOST_TOLD).map(|e| mistake(file, text, e));
    let more = all.len().saturating_sub(MOST_TOLD);
    let more =
        (more > 0).then(|| format!("{}: and {} more", called(file), counted(more, "mistake")));
    told.chain(more).collect::<Vec<String>>().join("\n")
}
