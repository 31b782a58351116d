//! Files that commands write: never over an input or a file of another kind, and whole or not at all.

use crate::command::input::called;
use crate::command::names::path;
use crate::command::print_bytes;
use crate::further;
use reference::image::written::Written;
use std::fs::{self, File, Metadata, OpenOptions};
use std::io::{self, Read, Write};
use std::path::{Path, PathBuf};

/// What is written.
#[derive(Debug, Clone, Copy, PartialEq, Eq)]
pub enum Kind {
    Image,
    Page,
    Drawing,
    Table,
    Outline,
    Litmus,
    Set,
}

impl Kind {
    fn name(self) -> &'static str {
        match self {
            Kind::Image => "image",
            Kind::Page => "page",
            Kind::Drawing => "drawing",
            Kind::Table => "table",
            Kind::Outline => "outline",
            Kind::Litmus => "litmus test",
            Kind::Set => "stored set",
        }
    }

    /// Whether a file that begins with these bytes is of this kind. An empty file may become anything.
    fn fits(self, front: &[u8]) -> bool {
        let text = || String::from_utf8_lossy(front).trim_start().to_ascii_lowercase();
        match self {
            _ if front.is_empty() => true,
            // The first record is the header, of kind 1.
            Kind::Image => front.get(2..4) == Some(&[1, 0]),
            Kind::Page => text().starts_with("<!doctype html") || text().starts_with("<html"),
            Kind::Drawing => text().starts_with("<svg"),
            Kind::Litmus => text().starts_with("c "),
            // A text that is neither a page nor a drawing.
            Kind::Outline => {
                let is_text = !front.contains(&0) && !Kind::Page.fits(front);
                is_text && !Kind::Drawing.fits(front)
            }
            // The length of an image has 32 bits or 16, and what follows is none of the others.
            Kind::Set => {
                let others = [Kind::Image, Kind::Page, Kind::Drawing, Kind::Outline, Kind::Table];
                !others.into_iter().any(|other| other.fits(front))
            }
            // Three bytes for each point, of which the first is a point's number.
            Kind::Table => {
                let is_short = front.len().is_multiple_of(3) && front.len() <= 3 * MOST_POINTS;
                is_short && front.chunks(3).all(|entry| entry[0] < 16) && !Kind::Image.fits(front)
            }
        }
    }
}

/// Four threads with 16 points each.
const MOST_POINTS: usize = 64;

/// So much of a file tells its kind, and that it is longer than a table.
const FRONT: u64 = 3 * MOST_POINTS as u64 + 1;

/// A place for a file that is going to be written; `-` is standard output.
#[derive(Debug, Clone)]
pub struct Target {
    name: String,
    kind: Kind,
}

impl Target {
    /// A place that is no input and has no file of another kind. It is looked at before the work begins.
    pub fn of(name: &str, kind: Kind, inputs: &[&str]) -> Result<Target, String> {
        let target = Target { name: name.into(), kind };
        if name == "-" {
            return Ok(target);
        }
        if let Some(input) = inputs.iter().find(|input| is_same(name, input)) {
            let input = called(input);
            return Err(format!("{name}: this is the input {input}, and is not written over"));
        }
        target.looked_at()?;
        Ok(target)
    }

    pub fn name(&self) -> &str {
        &self.name
    }

    /// Whether this and another place are one file.
    pub fn is(&self, other: &Target) -> bool {
        self.name != "-" && is_same(&self.name, &other.name)
    }

    /// Refuses a folder and a file of another kind.
    fn looked_at(&self) -> Result<(), String> {
        let told = |e: io::Error| format!("{}: {e}", self.name);
        let Ok(found) = fs::metadata(path(&self.name)) else { return Ok(()) };
        if found.is_dir() {
            return Err(format!("{}: this is a folder", self.name));
        }
        if !found.is_file() {
            return Ok(());
        }
        let mut front = Vec::new();
        let file = File::open(path(&self.name)).map_err(told)?;
        file.take(FRONT).read_to_end(&mut front).map_err(told)?;
        let (name, kind) = (&self.name, self.kind.name());
        match self.kind.fits(&front) {
            true => Ok(()),
            false => {
                Err(format!("{name}: a file that is no {kind} is there, and is not written over"))
            }
        }
    }

    /// No image has a line by a further rule.
    fn permitted(&self, bytes: &[u8]) -> Result<(), String> {
        let image = (self.kind == Kind::Image).then(|| Written::read(bytes)).flatten();
        let rules = image.map_or(Vec::new(), |image| further::used(&image));
        match rules.is_empty() {
            true => Ok(()),
            false => Err(format!("{}: {}", self.name, further::not_written(&rules))),
        }
    }

    /// Writes the file, whole or not at all.
    pub fn write(&self, bytes: &[u8]) -> Result<(), String> {
        self.prepared(bytes)?.put()
    }

    /// The file beside its place; `put` moves it there.
    pub fn prepared<'a>(&self, bytes: &'a [u8]) -> Result<Prepared<'a>, String> {
        self.permitted(bytes)?;
        if self.name == "-" {
            return Ok(Prepared::Printed(bytes));
        }
        self.looked_at()?;
        prepared(&path(&self.name), bytes).map_err(|e| format!("{}: {e}", self.name))
    }
}

/// Writes a file over what is there, whole or not at all.
pub fn replaced(path: &Path, bytes: &[u8]) -> Result<(), String> {
    prepared(path, bytes).map_err(|e| format!("{}: {e}", path.display()))?.put()
}

/// A file that is written and not yet in its place. What is not put there is removed again.
pub enum Prepared<'a> {
    Printed(&'a [u8]),
    /// A device or a pipe, which is written as it stands.
    Direct(PathBuf, &'a [u8]),
    Beside(Beside),
}

impl Prepared<'_> {
    pub fn put(self) -> Result<(), String> {
        match self {
            Prepared::Printed(bytes) => print_bytes(bytes),
            Prepared::Direct(place, bytes) => {
                let written = OpenOptions::new().write(true).truncate(true).open(&place);
                let written = written.and_then(|mut file| file.write_all(bytes));
                written.map_err(|e| format!("{}: {e}", place.display()))
            }
            Prepared::Beside(mut beside) => {
                let moved = fs::rename(&beside.file, &beside.place);
                beside.is_moved = moved.is_ok();
                moved.map_err(|e| format!("{}: {e}", beside.place.display()))
            }
        }
    }
}

/// A file beside its place.
pub struct Beside {
    file: PathBuf,
    place: PathBuf,
    is_moved: bool,
}

impl Drop for Beside {
    fn drop(&mut self) {
        if !self.is_moved {
            let _ = fs::remove_file(&self.file);
        }
    }
}

fn prepared<'a>(name: &Path, bytes: &'a [u8]) -> io::Result<Prepared<'a>> {
    let found = fs::metadata(name).ok();
    // What is open already, as standard output behind /dev, is written as it stands. /dev/shm is a folder like others.
    let is_open = name.starts_with("/dev") && !name.starts_with("/dev/shm");
    if found.as_ref().is_some_and(|found| is_open || !found.is_file()) {
        return Ok(Prepared::Direct(name.into(), bytes));
    }
    let place = followed(name)?;
    if found.is_some() {
        // A file that must not be written must not be replaced either.
        OpenOptions::new().write(true).open(&place)?;
    }
    let last = place.file_name().ok_or(io::Error::other("this is no file name"))?;
    let mut beside = std::ffi::OsString::from(".");
    beside.push(last);
    beside.push(format!(".{}.part", std::process::id()));
    let file = place.with_file_name(beside);
    let mut made = OpenOptions::new().write(true).create_new(true).open(&file)?;
    let beside = Beside { file, place, is_moved: false };
    made.write_all(bytes)?;
    if let Some(found) = found {
        made.set_permissions(found.permissions())?;
    }
    made.sync_all()?;
    Ok(Prepared::Beside(beside))
}

/// The file that a name leads to, through links; a link may lead to a file that is not there yet.
fn followed(name: &Path) -> io::Result<PathBuf> {
    let mut place = name.to_path_buf();
    for _ in 0..40 {
        match fs::read_link(&place) {
            Ok(next) => place = place.parent().unwrap_or(Path::new("")).join(next),
            Err(_) => return Ok(place),
        }
    }
    Err(io::Error::other("too many links"))
}

/// Whether two names are of one file, by whatever path or link; `-` is what standard input comes from.
fn is_same(one: &str, other: &str) -> bool {
    let place = |name: &str| path(if name == "-" { "/dev/stdin" } else { name });
    let (one, other) = (place(one), place(other));
    match (fs::metadata(&one), fs::metadata(&other)) {
        (Ok(a), Ok(b)) => a.is_file() && b.is_file() && is_one(&a, &b, &one, &other),
        (Err(_), Err(_)) => placed(&one).is_some_and(|a| placed(&other) == Some(a)),
        _ => false,
    }
}

/// The place of a file that is not there yet.
fn placed(name: &Path) -> Option<PathBuf> {
    let place = followed(name).ok()?;
    let folder = place.parent().filter(|folder| !folder.as_os_str().is_empty());
    Some(fs::canonicalize(folder.unwrap_or(Path::new("."))).ok()?.join(place.file_name()?))
}

#[cfg(unix)]
fn is_one(a: &Metadata, b: &Metadata, _: &Path, _: &Path) -> bool {
    use std::os::unix::fs::MetadataExt;
    (a.dev(), a.ino()) == (b.dev(), b.ino())
}

#[cfg(not(unix))]
fn is_one(_: &Metadata, _: &Metadata, one: &Path, other: &Path) -> bool {
    matches!((fs::canonicalize(one), fs::canonicalize(other)), (Ok(a), Ok(b)) if a == b)
}

#[cfg(test)]
mod tests {
    use super::*;

    #[test]
    fn kinds_are_told_by_their_front() {
        let image = [7, 0, 1, 0, 1, 1, 0, 8, 0];
        let outline = b"word x = 0\nthread t { true }\n";
        let page = b"<!DOCTYPE html>\n<html lang=\"en\">";
        let drawing = b"<svg xmlns=\"http://www.w3.org/2000/svg\">";
        let table = [0, 131, 0, 1, 40, 0];
        let all: [&[u8]; 5] = [&image, page, drawing, &table, outline];
        for (n, kind) in [Kind::Image, Kind::Page, Kind::Drawing, Kind::Table].iter().enumerate() {
            let fits: Vec<bool> = all.iter().map(|front| kind.fits(front)).collect();
            let mut want = vec![false; 5];
            want[n] = true;
            assert_eq!(fits, want, "{kind:?}");
            assert!(kind.fits(b""));
        }
        assert!(!Kind::Table.fits(&[0; 196]) && Kind::Table.fits(&[0; 192]));
    }
}
