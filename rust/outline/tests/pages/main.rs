//! Pages and drawings: what is on them, what they keep out, and the status of their commands.

mod claims;
mod drawings;
mod hostile;
mod quotes;
mod reader;
mod reports;

use std::path::PathBuf;
use std::process::Command;

fn examples() -> PathBuf {
    PathBuf::from(env!("CARGO_MANIFEST_DIR")).join("../../examples")
}

fn example(name: &str) -> String {
    examples().join(format!("{name}.outline")).to_string_lossy().into_owned()
}

/// The names of all examples.
fn names() -> Vec<String> {
    let files = std::fs::read_dir(examples()).expect("the examples are there");
    let name = |f: std::io::Result<std::fs::DirEntry>| {
        let name = f.expect("readable").file_name().to_string_lossy().into_owned();
        name.strip_suffix(".outline").map(String::from)
    };
    files.filter_map(name).collect()
}

/// Status, standard output and standard error of the program.
fn run(args: &[&str]) -> (i32, String, String) {
    let output = Command::new(env!("CARGO_BIN_EXE_outline")).args(args).output().expect("run");
    let text = |bytes: Vec<u8>| String::from_utf8(bytes).expect("text");
    (output.status.code().expect("a status"), text(output.stdout), text(output.stderr))
}

/// A folder of its own for a test.
fn folder(test: &str) -> PathBuf {
    let folder = std::env::temp_dir().join(format!("outline-{test}-{}", std::process::id()));
    std::fs::create_dir_all(&folder).expect("a place for files");
    folder
}
