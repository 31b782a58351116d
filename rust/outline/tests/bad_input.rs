//! Files that are no outlines and no images: each is told with its name and the reason, and takes no other with it.

mod program;

use program::{example, run, told, Folder};
use std::process::Command;

const GOOD: &str = "word x = 0\nthread a { a sees [x = 0] }\n";

fn put(folder: &Folder, name: &str, bytes: &[u8]) -> String {
    std::fs::write(folder.0.join(name), bytes).expect("written");
    folder.file(name)
}

/// The status of `check` on a file, and what is told behind its name.
fn checked(file: &str) -> (i32, String) {
    let (status, out, err) = run(&["check", file]);
    assert_eq!(err, "", "{file}");
    let told = out.strip_prefix(&format!("{file}: ")).unwrap_or_else(|| panic!("{out}"));
    (status, told.lines().next().unwrap_or_default().to_string())
}

const ACCEPTED: &str = "ACCEPTED: 1 obligation met";

#[test]
fn texts_that_are_not_plain_utf8() {
    let folder = Folder::new("encodings");
    let good = |name: &str, bytes: &[u8]| checked(&put(&folder, name, bytes));
    let bad = |name: &str, bytes: &[u8]| {
        let file = put(&folder, name, bytes);
        let (status, told) = checked(&file);
        assert_eq!(status, 2, "{told}");
        told.strip_prefix(&format!("NOT JUDGED: {file}"))
            .unwrap_or_else(|| panic!("{told}"))
            .to_string()
    };
    let marked = [b"\xEF\xBB\xBF", GOOD.as_bytes()].concat();
    assert_eq!(good("mark.outline", &marked), (0, ACCEPTED.into()));
    assert_eq!(good("mark.txt", &marked), (0, ACCEPTED.into()));
    assert_eq!(good("lines.outline", GOOD.replace('\n', "\r\n").as_bytes()), (0, ACCEPTED.into()));
    let latin = [b"word x = 0 # gr", &b"\xFC"[..], b"n\n", &GOOD.as_bytes()[11..]].concat();
    for name in ["latin.outline", "latin.txt"] {
        assert_eq!(bad(name, &latin), ":1:16: the byte 0xFC here is no UTF-8");
    }
    let second = [GOOD.as_bytes(), "# \u{fc}".as_bytes(), &[0xE4]].concat();
    assert_eq!(bad("second.outline", &second), ":3:4: the byte 0xE4 here is no UTF-8");
    let wide = |text: &str| text.encode_utf16().flat_map(u16::to_le_bytes).collect::<Vec<u8>>();
    let utf16 = [&[0xFF, 0xFE][..], &wide(GOOD)].concat();
    for name in ["wide.outline", "wide.txt"] {
        assert_eq!(bad(name, &utf16), ": this text is UTF-16, and UTF-8 is wanted");
    }
    assert_eq!(bad("wide-too.outline", &wide(GOOD)), ":1:2: a byte 0 stands in this text");
    assert_eq!(bad("empty.outline", b""), ": the file is empty");
    let alone = "a carriage return stands alone here; lines end with a line feed";
    assert_eq!(bad("old.outline", GOOD.replace('\n', "\r").as_bytes()), format!(":1:11: {alone}"));
    // Of an image the checker says that it is empty.
    assert_eq!(good("empty.image", b"").0, 1);
    let (status, _, err) = run(&["build", &put(&folder, "nothing", b""), "-o", "-"]);
    assert_eq!((status, err), (2, format!("{}: the file is empty\n", folder.file("nothing"))));
}

/// Deep nesting in every place where a formula stands: told at its place, in a folder beside others that are judged.
#[test]
fn nesting_is_bounded() {
    let folder = Folder::new("nesting");
    let bodies = [
        format!("{}true{}", "(".repeat(5000), ")".repeat(5000)),
        format!("holds ({}true)", "not ".repeat(50_000)),
        format!("a sees {}one x{}", "(".repeat(5000), ")".repeat(5000)),
        format!("a sees [{}", "(".repeat(50_000)),
        format!("a sees [x = 0]{}", " ; [x = 0]".repeat(50_000)),
        format!("r{} = 0", " + 1".repeat(50_000)),
        format!("r = {}", "(".repeat(50_000)),
        format!("true{}", " and true".repeat(50_000)),
        format!("{}true", "true => ".repeat(50_000)),
    ];
    for (n, body) in bodies.iter().enumerate() {
        folder.with(
            &format!("{n}.outline"),
            &format!("word x = 0\nthread a registers r\n{{ {body} }}\n"),
        );
    }
    folder.with("good.outline", GOOD);
    let (status, out, err) = run(&["check", &folder.0.to_string_lossy()]);
    assert_eq!((status, err.as_str()), (2, ""));
    assert!(out.contains(&format!("good.outline: {ACCEPTED}\n")), "{out}");
    assert!(out.contains("10 files: 1 accepted, 0 refused, 9 not judged"), "{out}");
    let deep = |line: &&str| {
        line.contains(".outline:3:") && line.contains("nested too deep: 16 is the most")
    };
    assert_eq!(out.lines().filter(deep).count(), 9, "{out}");
    assert!(out.lines().all(|line| line.len() < 400), "a long line is told in part");
}

/// Names of names that double in size each time are refused before they are written out.
#[test]
fn names_that_double_are_bounded() {
    let lets: String = (0..200).map(|n| format!("let P{} = P{n} and P{n}\n", n + 1)).collect();
    let folder = Folder::new("doubling");
    let text = format!("word x = 0\nlet P0 = a sees [x = 0]\n{lets}thread a {{ P200 }}\n");
    let (status, told) = checked(&folder.with("d.outline", &text));
    let want = ":7:5: formula of 287 bytes and nesting 9; 255 bytes and nesting 16 are the most";
    assert!(status == 2 && told.ends_with(want), "{told}");
}

#[cfg(unix)]
#[test]
fn names_that_are_not_text() {
    use std::os::unix::ffi::{OsStrExt, OsStringExt};
    let folder = Folder::new("names");
    let name = std::ffi::OsStr::from_bytes(b"gr\xFCn.outline");
    let path = folder.0.join(name);
    std::fs::write(&path, GOOD).expect("written");
    let shown = format!("{}/gr\\xFCn.outline", folder.0.display());
    let tool = |args: &[&std::ffi::OsStr]| {
        told(Command::new(env!("CARGO_BIN_EXE_outline")).args(args).output().expect("run"))
    };
    for args in
        [&["check".as_ref(), path.as_os_str()][..], &["check".as_ref(), folder.0.as_os_str()]]
    {
        let (status, out, err) = tool(args);
        assert!(status == 0 && out.starts_with(&format!("{shown}: {ACCEPTED}\n")), "{out}{err}");
    }
    let (_, out, _) = tool(&["check".as_ref(), path.as_os_str(), "--json".as_ref()]);
    assert!(out.contains("/gr\\\\xFCn.outline\",\"accepted\":true"), "{out}");
    let target = std::ffi::OsString::from_vec([path.as_os_str().as_bytes(), b".image"].concat());
    let (status, out, err) =
        tool(&["build".as_ref(), path.as_os_str(), "-o".as_ref(), target.as_os_str()]);
    assert!(status == 0 && out.starts_with(&format!("{shown}.image: ")), "{out}{err}");
    assert!(std::path::Path::new(&target).exists());
    let (status, _, err) = tool(&[std::ffi::OsStr::from_bytes(b"\xFF")]);
    assert_eq!((status, err.as_str()), (2, "`\\xFF` is no command; see outline --help\n"));
}

/// A folder that links to itself, a link to nowhere, a pipe, and names in capitals.
#[cfg(unix)]
#[test]
fn folders_with_odd_things_in_them() {
    let folder = Folder::new("odd");
    folder.with("UPPER.OUTLINE", GOOD);
    std::fs::create_dir_all(folder.0.join("in")).expect("a folder");
    folder.with("in/b.outline", GOOD);
    std::os::unix::fs::symlink("..", folder.0.join("in/again")).expect("a link");
    std::os::unix::fs::symlink(".", folder.0.join("self")).expect("a link");
    std::os::unix::fs::symlink("nowhere", folder.0.join("lost.outline")).expect("a link");
    let pipe = folder.file("pipe.outline");
    assert!(Command::new("mkfifo").arg(&pipe).status().expect("mkfifo").success());
    assert_eq!(run(&["build", &example("polling"), "-o", &folder.file("P.IMAGE")]).0, 0);
    let (status, out, _) = run(&["check", &folder.0.to_string_lossy()]);
    let heads: Vec<&str> = out.lines().filter(|line| !line.starts_with(' ')).collect();
    let at = |name: &str| folder.file(name);
    assert_eq!(heads.len(), 6, "{out}");
    assert_eq!(heads[0], format!("{}: ACCEPTED: 22 obligations met", at("P.IMAGE")));
    assert_eq!(heads[1], format!("{}: {ACCEPTED}", at("UPPER.OUTLINE")));
    assert_eq!(heads[2], format!("{}: {ACCEPTED}", at("in/b.outline")));
    let lost = at("lost.outline");
    assert!(heads[3].starts_with(&format!("{lost}: NOT JUDGED: {lost}: No such file")), "{out}");
    assert_eq!(heads[4], format!("{pipe}: NOT JUDGED: this is no file to read"));
    assert!(
        status == 2 && heads[5].starts_with("5 files: 3 accepted, 0 refused, 2 not judged"),
        "{out}"
    );
}

/// A file of 500 MB is not read to its end: a hundredth of its size is room enough.
#[cfg(target_os = "linux")]
#[test]
fn a_long_file_is_not_read_to_its_end() {
    let folder = Folder::new("long");
    for name in ["long.outline", "long.image", "long"] {
        let file = folder.file(name);
        std::fs::File::create(&file).expect("made").set_len(500 << 20).expect("a long file");
        let asked = format!("ulimit -v 100000; {} check {file}", env!("CARGO_BIN_EXE_outline"));
        let (status, out, err) =
            told(Command::new("sh").args(["-c", &asked]).output().expect("run"));
        let want = format!(
            "{file}: NOT JUDGED: {file}: longer than 16 MiB, and no outline, image or trace is\n"
        );
        assert_eq!((status, out, err.as_str()), (2, want, ""));
    }
}

#[cfg(target_os = "linux")]
#[test]
fn outputs_that_nobody_hears() {
    let tool = env!("CARGO_BIN_EXE_outline");
    let sh = |asked: String| told(Command::new("sh").args(["-c", &asked]).output().expect("run"));
    let polling = example("polling");
    let (status, _, err) = sh(format!("{tool} check {polling} >&-"));
    assert_eq!(
        (status, err.as_str()),
        (2, "standard output is closed: nobody would see the answer\n")
    );
    assert_eq!(sh(format!("{tool} check {polling} > /dev/null")).0, 0);
    // Messages that cannot be written change no status, and end nothing.
    for (args, status) in [("check", 2), ("build nothing -o -", 2), ("build - -o - < /dev/null", 2)]
    {
        assert_eq!(sh(format!("{tool} {args} 2> /dev/full")).0, status, "{args}");
        assert_eq!(sh(format!("{tool} {args} 2>&-")).0, status, "{args}");
    }
    let wrong = example("message-passing-wrong-1");
    assert_eq!(sh(format!("{tool} build {wrong} -o - 2> /dev/full")).0, 1);
}
