//! Names, comments and file names that would be markup stay text.

use crate::reader::tags;
use crate::{folder, run};
use outline::diagnosis::Diagnosis;
use outline::draw::{Ending, Picture};
use outline::judged::{judged, Goal};
use outline::report::words::Words;
use outline::report::{page, Content, Source, Subject};
use outline::text::parse_source::parse;
use reference::checker::decode;
use reference::explore::Bounds;

/// It would close any element or attribute it stands in.
const BAD: &str =
    "'\"--></style></svg></code><script>alert(1)</script><img src=x onerror=alert(1)>&#0;]]>";

const WRONG: &str = "word x = 0
thread t { true } x := 1 { t sees [x = 2] }
thread u registers r { true } r <- x { true }";

/// The text has the bad one only escaped, and no tag or attribute that this program does not write.
fn is_safe(text: &str) {
    assert!(!text.contains("<script") && !text.contains("<img") && !text.contains("--></style>"));
    assert!(text.contains("&lt;script&gt;alert(1)&lt;/script&gt;"), "the name is told");
    for tag in tags(text) {
        assert!(!["script", "img", "iframe"].contains(&tag.name.as_str()));
        assert!(!tag.attributes.iter().any(|(name, _)| name.starts_with("on") || name == "src"));
    }
}

/// Names that no text can have, put where a page takes them from.
fn content() -> (Vec<u8>, Content) {
    let mut source = parse(WRONG).expect("a source");
    let bad =
        |all: &mut Vec<String>| all.iter_mut().for_each(|name| *name = format!("{BAD}{name}"));
    let built = outline::build::build(&source).expect("built");
    let bytes = built.image.bytes();
    bad(&mut source.names.words);
    bad(&mut source.names.threads);
    bad(&mut source.names.registers);
    let decoded = decode(&bytes).expect("an image");
    let judged = judged(&decoded);
    let bounds = Bounds { steps: 4, writes: 4, starts: 4, states: 1000 };
    let goals: Vec<Goal> = judged.iter().map(|judged| judged.goal).collect();
    let diagnosis = Some(Diagnosis::of(&decoded.program, &[], &goals, bounds));
    let mut words = Words::of_image(&source.names, &decoded.program);
    words.lets = vec![(BAD.into(), BAD.into())];
    let image = outline::image::read(&bytes).expect("an image");
    let tried = vec![BAD.into()];
    (bytes, Content { image, words, judged, accepted: false, diagnosis, tried })
}

#[test]
fn a_page_escapes_every_name() {
    let (bytes, content) = content();
    let verdict = reference::checker::check(&bytes);
    let about = vec![BAD.to_string()];
    let names = content.words.names.clone();
    let source = Some(Source { text: BAD.as_bytes(), names: &names });
    let subject = Subject {
        file: BAD,
        about,
        bytes: &bytes,
        source,
        date: BAD,
        verdict,
        judge: BAD,
        content: Some(content),
    };
    let text = page(&subject);
    is_safe(&text);
    assert!(text.contains("<svg"), "the run is drawn");
}

#[test]
fn a_drawing_escapes_every_name() {
    let (_, content) = content();
    let broken = content.diagnosis.as_ref().and_then(Diagnosis::worst).expect("a run breaks it");
    let (program, names) = (&content.image.program, &content.words.names);
    for ending in [Ending::False { thread: 1, words: BAD.into() }, Ending::Outcome(BAD.into())] {
        is_safe(&Picture { program, names, run: &broken.run, ending }.svg().written());
    }
}

#[test]
fn comments_and_file_names_stay_text() {
    let folder = folder("hostile");
    let name = "<script>alert(1)<\u{202e}script>'\".outline";
    let file = folder.join(name);
    std::fs::write(&file, format!("# </style><script>alert(1)</script>\n{WRONG}"))
        .expect("written");
    let (status, text, _) = run(&["report", file.to_str().expect("a name"), "-o", "-"]);
    assert_eq!(status, 1);
    is_safe(&text);
    assert!(!text.contains('\u{202e}'), "nothing turns the direction of the text");
    let (status, svg, _) = run(&["draw", file.to_str().expect("a name"), "-o", "-"]);
    assert_eq!(status, 1);
    tags(&svg);
    let _ = std::fs::remove_dir_all(folder);
}
