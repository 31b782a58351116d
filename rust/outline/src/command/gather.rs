//! The files of folders.

use crate::command::input::{is_image, is_outline};
use crate::command::names::{from_os, path};
use std::collections::HashSet;
use std::path::{Path, PathBuf};

/// A file that is to be read, or why it cannot be.
pub struct Gathered {
    pub file: String,
    pub fault: Option<String>,
}

/// Files as they are named, and of folders the outlines and images, by name.
pub fn gathered(names: &[String]) -> Vec<Gathered> {
    let (mut files, mut seen) = (Vec::new(), HashSet::new());
    for name in names {
        match path(name).is_dir() {
            true => folder(&path(name), &mut seen, &mut files),
            false => files.push(Gathered { file: name.clone(), fault: None }),
        }
    }
    files
}

/// A folder that was seen already, since a link leads back to it, has nothing new.
fn folder(folder_path: &Path, seen: &mut HashSet<PathBuf>, files: &mut Vec<Gathered>) {
    let entries = std::fs::canonicalize(folder_path).and_then(|place| {
        let is_new = seen.insert(place);
        if !is_new {
            return Ok(Vec::new());
        }
        std::fs::read_dir(folder_path)?.map(|entry| Ok(entry?.path())).collect()
    });
    let mut inner: Vec<PathBuf> = match entries {
        Ok(inner) => inner,
        Err(e) => {
            files.push(Gathered {
                file: from_os(folder_path.as_os_str()),
                fault: Some(e.to_string()),
            });
            return;
        }
    };
    inner.sort();
    for path in inner {
        if path.is_dir() {
            folder(&path, seen, files);
            continue;
        }
        let file = from_os(path.as_os_str());
        if is_image(&file) || is_outline(&file) {
            // A pipe would be waited for without end.
            let is_other = path.metadata().is_ok_and(|found| !found.is_file());
            files
                .push(Gathered { file, fault: is_other.then(|| "this is no file to read".into()) });
        }
    }
}
