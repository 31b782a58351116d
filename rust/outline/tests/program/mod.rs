//! The program as tests run it: folders for its files, what it prints, its status.
// Each group of tests uses a part of this.
#![allow(dead_code)]

use std::io::Write;
use std::path::PathBuf;
use std::process::{Command, Output, Stdio};

pub fn example(name: &str) -> String {
    let folder = PathBuf::from(env!("CARGO_MANIFEST_DIR")).join("../../examples");
    folder.join(format!("{name}.outline")).to_string_lossy().into_owned()
}

/// A folder of its own for a test, cleared away at the end.
pub struct Folder(pub PathBuf);

impl Folder {
    pub fn new(test: &str) -> Folder {
        let folder = std::env::temp_dir().join(format!("outline-{test}-{}", std::process::id()));
        std::fs::create_dir_all(&folder).expect("a place for files");
        Folder(folder)
    }

    pub fn file(&self, name: &str) -> String {
        self.0.join(name).to_string_lossy().into_owned()
    }

    pub fn with(&self, name: &str, text: &str) -> String {
        std::fs::write(self.0.join(name), text).expect("written");
        self.file(name)
    }
}

impl Drop for Folder {
    fn drop(&mut self) {
        let _ = std::fs::remove_dir_all(&self.0);
    }
}

pub fn run(args: &[&str]) -> (i32, String, String) {
    told(Command::new(env!("CARGO_BIN_EXE_outline")).args(args).output().expect("run"))
}

pub fn told(output: Output) -> (i32, String, String) {
    let text = |bytes: Vec<u8>| String::from_utf8_lossy(&bytes).into_owned();
    (output.status.code().expect("a status"), text(output.stdout), text(output.stderr))
}

pub fn fed(args: &[&str], input: &[u8]) -> Output {
    let mut child = Command::new(env!("CARGO_BIN_EXE_outline"))
        .args(args)
        .stdin(Stdio::piped())
        .stdout(Stdio::piped())
        .stderr(Stdio::piped())
        .spawn()
        .expect("run");
    let written = child.stdin.take().expect("a pipe").write_all(input);
    // A program that needs no input may end before it is fed.
    let is_closed = |e: &std::io::Error| e.kind() == std::io::ErrorKind::BrokenPipe;
    assert!(written.is_ok() || written.as_ref().is_err_and(is_closed), "{written:?}");
    child.wait_with_output().expect("run")
}

pub fn judge() -> &'static str {
    if cfg!(feature = "proved") {
        "proved checker"
    } else {
        "independent checker"
    }
}
