//! Images that are not made from a seed.

use reference::stored::stored_images;
use sets::examples::{largest, message_passing, two_writes};
use sets::vectors::{formulas, images, rules, Case};
use std::path::{Path, PathBuf};

/// A name and images, or why there are none.
pub type Source = Result<(&'static str, Vec<Case>), String>;

/// The sets that `vectors` writes, and the proofs written by hand.
pub fn sets() -> [Source; 4] {
    let by_hand = [
        ("message passing", message_passing().bytes()),
        ("two writes", two_writes().bytes()),
        ("largest", largest()),
    ];
    [
        Ok(("formulas", formulas::images(&formulas::cases()))),
        Ok(("images", images::cases())),
        Ok(("rules", rules::cases())),
        Ok(("by hand", by_hand.map(|(label, image)| Case::new(label, image)).into())),
    ]
}

/// The sets that lie in the repository.
pub fn stored() -> Source {
    let folder = Path::new(env!("CARGO_MANIFEST_DIR")).join("../../crates/vectors_calls/data");
    let mut labelled = Vec::new();
    for name in ["images", "rules", "examples", "formulas"] {
        let path = folder.join(name).with_extension("bin");
        let bytes = read(&path)?;
        let cases =
            stored_images(&bytes).ok_or_else(|| format!("{}: cut short", path.display()))?;
        for (index, case) in cases.iter().enumerate() {
            labelled.push(Case::new(format!("{name} {}", index + 1), case.image.to_vec()));
        }
    }
    Ok(("stored in the repository", labelled))
}

/// Inputs about as long as an image may be, and much longer: zeros, and an image in order with bytes behind.
pub fn long() -> Source {
    let lengths = [65_535, 65_536, 70_000, 262_143, 262_144, 262_145, 262_146, 1_000_000];
    let cases = lengths.into_iter().flat_map(|length| {
        let zeros = Case::new(format!("{length} zeros"), vec![0; length]);
        let mut bytes = message_passing().bytes();
        bytes.resize(length, 0);
        [zeros, Case::new(format!("message passing and zeros, {length} bytes"), bytes)]
    });
    Ok(("long inputs", cases.collect()))
}

/// The images in files, and in all files of folders.
pub fn files(paths: &[&str]) -> Result<Vec<Case>, String> {
    let mut cases = Vec::new();
    for path in paths {
        for file in within(Path::new(path))? {
            cases.push(Case::new(file.display().to_string(), read(&file)?));
        }
    }
    Ok(cases)
}

/// The path itself, or the files of a folder by name.
fn within(path: &Path) -> Result<Vec<PathBuf>, String> {
    if !path.is_dir() {
        return Ok(vec![path.to_path_buf()]);
    }
    let fault = |error| format!("{}: {error}", path.display());
    let entries = std::fs::read_dir(path).map_err(fault)?;
    let mut files = entries
        .map(|entry| Ok(entry?.path()))
        .collect::<Result<Vec<PathBuf>, _>>()
        .map_err(fault)?;
    files.sort();
    Ok(files)
}

fn read(path: &Path) -> Result<Vec<u8>, String> {
    std::fs::read(path).map_err(|error| format!("{}: {error}", path.display()))
}
