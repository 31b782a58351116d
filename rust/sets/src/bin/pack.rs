//! Writes the images of a folder as a stored set, in the order of their names, with their names as labels: judged,
//! trimmed into buffers that are just long enough, or with traces that are replayed if they are accepted.
//!
//! Usage: pack [--trim|--replay] IMAGES FOLDER NAME

use sets::vectors::{replays, store, trims, Case};
use std::io::{Error, Result};
use std::path::Path;

fn cases(images: &Path) -> Result<Vec<Case>> {
    let mut cases = Vec::new();
    for entry in std::fs::read_dir(images)? {
        let path = entry?.path();
        let label = path.file_stem().map(|stem| stem.to_string_lossy().into_owned());
        cases.push(Case::new(label.unwrap_or_default(), std::fs::read(&path)?));
    }
    cases.sort_by(|one, other| one.label.cmp(&other.label));
    Ok(cases)
}

fn main() -> Result<()> {
    let arguments: Vec<String> = std::env::args().skip(1).collect();
    let words: Vec<&str> = arguments.iter().map(String::as_str).collect();
    let (kind, [images, folder, name]) = match words[..] {
        [kind @ ("--trim" | "--replay"), images, folder, name] => (kind, [images, folder, name]),
        [images, folder, name] => ("", [images, folder, name]),
        _ => return Err(Error::other("usage: pack [--trim|--replay] IMAGES FOLDER NAME")),
    };
    let (cases, folder) = (cases(Path::new(images))?, Path::new(folder));
    let (count, files) = match kind {
        "--trim" => {
            let cases: Vec<_> = cases.into_iter().map(|c| trims::exact(c.label, c.image)).collect();
            (cases.len(), store::trims(&cases))
        }
        "--replay" => {
            let cases: Vec<_> =
                cases.iter().flat_map(|c| replays::of_image(&c.label, &c.image)).collect();
            (cases.len(), store::replays(&cases))
        }
        _ => (cases.len(), (store::container(&cases), store::index(&cases))),
    };
    println!("{name}: {count} cases");
    store::write(folder, name, files)
}
