//! What commands write: never over an input or a file of another kind, and whole or not at all.

mod program;

use program::{example, fed, run, told, Folder};
use std::path::Path;

fn read(file: &str) -> Vec<u8> {
    std::fs::read(file).expect("readable")
}

/// A command that must write nothing: its message, and the file as it was.
fn refused(args: &[&str], file: &str) -> String {
    let before = read(file);
    let (status, out, err) = run(args);
    assert_eq!((status, out.as_str()), (2, ""), "{args:?}: {err}");
    assert!(read(file) == before, "{args:?}");
    err
}

/// A folder with an outline and its image.
fn prepared(test: &str) -> (Folder, String, String) {
    let folder = Folder::new(test);
    let text = std::fs::read_to_string(example("polling")).expect("readable");
    let (source, image) = (folder.with("p.outline", &text), folder.file("p.image"));
    assert_eq!(run(&["build", &source, "-o", &image]).0, 0);
    (folder, source, image)
}

/// The names in a folder, so that what was written beside a file and left there is seen.
fn names(folder: &Folder) -> Vec<String> {
    let entries = std::fs::read_dir(&folder.0).expect("a folder");
    let mut names: Vec<String> =
        entries.map(|e| e.expect("readable").file_name().to_string_lossy().into_owned()).collect();
    names.sort();
    names
}

#[test]
fn no_command_writes_over_its_input() {
    let (folder, source, image) = prepared("over-input");
    let trace = folder.with("steps", "reader 0\n");
    let input = |file: &str| format!("{file}: this is the input {file}, and is not written over\n");
    for args in [
        &["build", &source, "-o", &source][..],
        &["report", &source, "-o", &source],
        &["draw", &source, "-o", &source, "--outcome", "true"],
        &["trim", &source, "-o", &source],
        &["replay", &source, &trace, "-o", &source],
        &["handover", &source, &image, "-o", &source, "--table", &folder.file("t")],
    ] {
        assert_eq!(refused(args, &source), input(&source));
    }
    assert_eq!(refused(&["trim", &image, "-o", &image], &image), input(&image));
    assert_eq!(refused(&["replay", &source, &trace, "-o", &trace], &trace), input(&trace));
    let table = ["handover", &source, &image, "-o", &folder.file("n.image"), "--table", &image];
    assert_eq!(refused(&table, &image), input(&image));
    assert_eq!(names(&folder), ["p.image", "p.outline", "steps"]);
}

/// The same file by a roundabout path, a link, a hard link, and as what standard input comes from.
#[cfg(unix)]
#[test]
fn an_input_is_known_by_every_name() {
    let (folder, source, image) = prepared("other-names");
    std::fs::create_dir_all(folder.0.join("in")).expect("a folder");
    let (link, hard) = (folder.file("link"), folder.file("hard"));
    std::os::unix::fs::symlink(&image, &link).expect("a link");
    std::fs::hard_link(&image, &hard).expect("a hard link");
    for other in [&folder.file("in/../p.image"), &link, &hard] {
        let err = refused(&["trim", &image, "-o", other], &image);
        assert_eq!(err, format!("{other}: this is the input {image}, and is not written over\n"));
        let err = refused(&["trim", other, "-o", &image], &image);
        assert_eq!(err, format!("{image}: this is the input {other}, and is not written over\n"));
    }
    let before = read(&image);
    let from = std::fs::File::open(&image).expect("readable");
    let mut trim = std::process::Command::new(env!("CARGO_BIN_EXE_outline"));
    let (status, _, err) =
        told(trim.args(["trim", "-", "-o", &image]).stdin(from).output().expect("run"));
    let want = format!("{image}: this is the input standard input, and is not written over\n");
    assert_eq!((status, err, read(&image) == before), (2, want, true));
    assert!(Path::new(&source).exists());
}

#[test]
fn no_command_writes_over_a_file_of_another_kind() {
    let (folder, source, image) = prepared("other-kind");
    let notes = folder.with("notes.txt", "mine\n");
    let other = folder.with("q.outline", "word x = 0\nthread a { a sees [x = 0] }\n");
    let kept = |file: &str, kind: &str| {
        format!("{file}: a file that is no {kind} is there, and is not written over\n")
    };
    for file in [&notes, &other] {
        assert_eq!(refused(&["build", &source, "-o", file], file), kept(file, "image"));
        assert_eq!(refused(&["trim", &image, "-o", file], file), kept(file, "image"));
        assert_eq!(refused(&["report", &source, "-o", file], file), kept(file, "page"));
        let draw = ["draw", &source, "--outcome", "true", "-o", file];
        assert_eq!(refused(&draw, file), kept(file, "drawing"));
        let table = ["handover", &source, &image, "-o", &folder.file("n.image"), "--table", file];
        assert_eq!(refused(&table, file), kept(file, "table"));
    }
    assert_eq!(refused(&["report", &source, "-o", &image], &image), kept(&image, "page"));
    let (status, _, err) = run(&["build", &source, "-o", &folder.0.to_string_lossy()]);
    assert_eq!((status, err), (2, format!("{}: this is a folder\n", folder.0.display())));
    let twice =
        ["handover", &source, &image, "-o", &folder.file("n"), "--table", &folder.file("./n")];
    let want = format!("{}: the image and the table are two files\n", folder.file("./n"));
    assert_eq!(run(&twice).2, want);
    assert_eq!(names(&folder), ["notes.txt", "p.image", "p.outline", "q.outline"]);
}

#[test]
fn a_file_of_the_same_kind_or_an_empty_one_is_replaced() {
    let (folder, source, image) = prepared("same-kind");
    let wrong = example("message-passing-wrong-2");
    let (page, drawing, table) = (folder.file("p.html"), folder.file("p.svg"), folder.file("t"));
    let new = folder.with("new.image", "");
    for _ in 0..2 {
        assert_eq!(run(&["report", &source, "-o", &page]).0, 0);
        assert_eq!(run(&["draw", &wrong, "-o", &drawing]).0, 1);
        assert_eq!(run(&["handover", &source, &image, "-o", &new, "--table", &table]).0, 0);
    }
    let before = read(&image);
    assert_eq!(run(&["build", &example("coherence"), "-o", &image]).0, 0);
    assert!(read(&image) != before);
    assert_eq!(names(&folder), ["new.image", "p.html", "p.image", "p.outline", "p.svg", "t"]);
}

#[cfg(unix)]
#[test]
fn permissions_and_links_stay() {
    use std::os::unix::fs::PermissionsExt;
    let (folder, source, image) = prepared("kept");
    let mode = |file: &str| std::fs::metadata(file).expect("there").permissions().mode() & 0o777;
    std::fs::set_permissions(&image, PermissionsExt::from_mode(0o640)).expect("set");
    let link = folder.file("link.image");
    std::os::unix::fs::symlink("p.image", &link).expect("a link");
    let new = folder.file("to-come.image");
    std::os::unix::fs::symlink("come.image", &new).expect("a link");
    for target in [&link, &new] {
        assert_eq!(run(&["build", &source, "-o", target]).0, 0);
        assert!(std::fs::symlink_metadata(target).expect("there").is_symlink());
    }
    assert_eq!(mode(&image), 0o640);
    assert_eq!(read(&folder.file("come.image")), read(&image));
    let all = ["come.image", "link.image", "p.image", "p.outline", "to-come.image"];
    assert_eq!(names(&folder), all);
}

/// The system ends a program that writes more than it may; what was in the place stays whole.
#[cfg(unix)]
#[test]
fn what_is_not_written_whole_is_not_written() {
    let (folder, source, image) = prepared("whole");
    let before = read(&image);
    assert!(before.len() > 2048);
    let tool = env!("CARGO_BIN_EXE_outline");
    let asked = format!("ulimit -f 1; {tool} build {source} -o {image} --all-lines");
    let output = std::process::Command::new("sh").args(["-c", &asked]).output().expect("run");
    assert!(!output.status.success());
    assert!(read(&image) == before, "the image is no longer what it was");
    let (status, ..) = run(&["build", &source, "-o", &folder.file("none/p.image")]);
    assert_eq!((status, Path::new(&folder.file("none")).exists()), (2, false));
}

#[test]
fn calls_of_callers_write_over_no_file_of_theirs() {
    let (folder, _, image) = prepared("calls-over");
    let calls = |targets: [&str; 2]| {
        let [one, other] = targets;
        let text = format!("caller 1 may check\n1 check p.outline\n1 trim p.image {one}\n1 trim p.outline {other}\n");
        folder.with("calls", &text)
    };
    let text = calls(["p.image", "calls"]);
    let err = refused(&["serve", &text], &image);
    assert!(
        err.contains(&format!(
            "{text}:3:8: {image}: this is the input {image}, and is not written over\n"
        )),
        "{err}"
    );
    assert!(
        err.contains(&format!(
            "{text}:4:8: {text}: this is the input {text}, and is not written over\n"
        )),
        "{err}"
    );
    let text = calls(["small.image", "./small.image"]);
    let err = refused(&["serve", &text], &image);
    let twice =
        format!("{text}:4:8: {}: a call before this one writes it\n", folder.file("./small.image"));
    assert!(err.starts_with(&twice), "{err}");
    assert_eq!(run(&["serve", &calls(["one.image", "two.image"])]).0, 0);
    assert_eq!(names(&folder), ["calls", "one.image", "p.image", "p.outline", "two.image"]);
}

#[test]
fn standard_output_and_devices_stay_places() {
    let (_folder, source, image) = prepared("devices");
    let text = read(&source);
    assert_eq!(fed(&["build", "-", "-o", "-"], &text).stdout, read(&image));
    if Path::new("/dev/null").exists() {
        assert_eq!(run(&["build", &source, "-o", "/dev/null"]).0, 0);
        let (_, out, _) = run(&["report", &source, "-o", "/dev/stdout"]);
        assert!(out.starts_with("<!DOCTYPE html>"), "{out}");
    }
}

/// A folder of files in memory stands behind /dev too.
#[test]
fn a_file_in_shared_memory_is_written_like_others() {
    if !Path::new("/dev/shm").is_dir() {
        return;
    }
    let image = format!("/dev/shm/outline-{}.image", std::process::id());
    let (status, _, err) = run(&["build", &example("polling"), "-o", &image]);
    let written = std::fs::metadata(&image).map_or(0, |file| file.len());
    let _ = std::fs::remove_file(&image);
    assert_eq!((status, err.as_str()), (0, ""));
    assert!(written > 0, "an image is there");
}
