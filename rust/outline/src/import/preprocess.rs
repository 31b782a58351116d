//! The C compiler's preprocessor, with a header of atomics whose functions are left as they are called.

use crate::c::lex::{tokens, Form, Kind, Token, Tokens};
use crate::c::Refusal;
use crate::command::names::path;
use std::path::PathBuf;
use std::process::Command;

/// Stands in for the compiler's own, in which `atomic_load_explicit` and others are macros.
const HEADER: &str = "#define ATOMIC_VAR_INIT(value) (value)\n";

/// A folder that is cleared away at the end.
struct Folder(PathBuf);

impl Drop for Folder {
    fn drop(&mut self) {
        let _ = std::fs::remove_dir_all(&self.0);
    }
}

/// What the preprocessor makes of a file; comments stay, since assertions stand in them.
pub fn preprocessed(file: &str, words: &[&str]) -> Result<String, String> {
    let folder = std::env::temp_dir().join(format!("outline-import-{}", std::process::id()));
    std::fs::create_dir_all(&folder).map_err(|e| format!("{}: {e}", folder.display()))?;
    let folder = Folder(folder);
    std::fs::write(folder.0.join("stdatomic.h"), HEADER)
        .map_err(|e| format!("{}: {e}", folder.0.display()))?;
    let compiler =
        std::env::var("CC").ok().filter(|name| !name.trim().is_empty()).unwrap_or("cc".into());
    let mut parts = compiler.split_whitespace();
    let mut command = Command::new(parts.next().unwrap_or("cc"));
    command
        .args(parts)
        .args(["-E", "-C", "-x", "c", "-isystem"])
        .arg(&folder.0)
        .args(words)
        .arg(path(&named(file)));
    let output =
        command.output().map_err(|e| format!("the C compiler `{compiler}` cannot be run: {e}"))?;
    let told = String::from_utf8_lossy(&output.stderr).trim_end().to_string();
    match output.status.success() {
        true => String::from_utf8(output.stdout)
            .map_err(|_| format!("{file}: the preprocessed text is no UTF-8")),
        false => Err(format!("{file}: the preprocessor says:\n{told}")),
    }
}

/// A name that is not taken for an option.
fn named(file: &str) -> String {
    if file.starts_with('-') {
        format!("./{file}")
    } else {
        file.into()
    }
}

/// The tokens, with columns of the file itself where they are those of the preprocessed text.
pub fn read(file: &str, text: &str, preprocessed: &str) -> Result<Tokens, Refusal> {
    let mut tokens = tokens(preprocessed, Form::Preprocessed, 0, &named(file))?;
    let lines: Vec<Vec<char>> = text.lines().map(|line| line.chars().collect()).collect();
    for token in &mut tokens.list {
        if !stands_there(token, &lines) {
            token.at.place.column = 0;
        }
    }
    Ok(tokens)
}

/// Does the token stand at its place in the file? A macro's do not.
fn stands_there(token: &Token, lines: &[Vec<char>]) -> bool {
    let place = token.at.place;
    let Some(line) = place.line.checked_sub(1).and_then(|line| lines.get(line)) else {
        return false;
    };
    let rest = line.get(place.column.saturating_sub(1)..).unwrap_or_default();
    let begins = |text: &str| text.chars().enumerate().all(|(n, c)| rest.get(n) == Some(&c));
    token.at.file == 0
        && match &token.kind {
            Kind::Name(name) => begins(name),
            Kind::Mark(mark) => begins(mark),
            Kind::Number(_) => rest.first().is_some_and(char::is_ascii_digit),
            Kind::Text(_) => begins("\""),
            Kind::Char => begins("'"),
            Kind::Note(_) => begins("//@"),
            Kind::End => false,
        }
}
