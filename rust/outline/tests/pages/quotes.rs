//! What may be quoted, and where a page comes from: date, versions, digests, the image beside it.

use crate::reader::tags;
use crate::{example, folder, run};
use outline::report::sha256::digest;

const DAY: [&str; 2] = ["--date", "2024-02-29"];

fn page(args: &[&str]) -> String {
    let (status, text, err) = run(&[&["report"], args, &["-o", "-"], &DAY].concat());
    assert!(status < 2, "{err}");
    text
}

/// The page's section of this name.
fn section<'a>(text: &'a str, id: &str) -> &'a str {
    let (_, behind) = text.split_once(&format!("<section id=\"{id}\"")).expect("a section");
    behind.split_once("</section>").expect("it ends").0
}

#[test]
fn claims_are_quoted_by_their_labels_and_last_assertions_in_words() {
    let text = page(&[&example("peterson-claim")]);
    let quote = section(&text, "quote");
    assert!(quote.contains("<li>ann and bob are never both at inside.</li>"), "{quote}");
    let order =
        "in every order of execution of C11’s release-acquire-relaxed fragment as RC11 defines it:";
    assert!(quote.contains(order) && quote.contains("(no load buffering)"), "{quote}");
    assert!(
        !quote.contains("its last point, <code"),
        "last assertions that say nothing are not quoted: {quote}"
    );
    let text = page(&[&example("message-passing")]);
    let last = "<li>Whenever reader is at its last point, <code class=\"formula\">a = 1 =&gt; b = 1</code> is true.</li>";
    assert!(section(&text, "quote").contains(last), "{text}");
    // The verdict's sentence says the same of the same.
    let order =
        "every order of execution of C11’s release-acquire-relaxed fragment as RC11 defines it";
    assert!(section(&text, "verdict").contains(&format!("In {order}, each assertion is true")));
}

/// What a quoted name of `let` stands for is part of the quote.
#[test]
fn a_quote_says_what_its_names_stand_for() {
    let folder = folder("quoted-let");
    let file = folder.join("q.outline");
    let text = "word x = 0\nlet Low = test r < 2\nlet Both = holds (Low) and a sees [x < 7]\nlet Other = test r = 1
thread a registers r { Both } r := 1 { Both }";
    std::fs::write(&file, text).expect("written");
    let text = page(&[file.to_str().expect("a name")]);
    let quote = section(&text, "quote");
    assert!(quote.contains("<li>where <code>Low</code> is <code>r &lt; 2</code></li>"), "{quote}");
    assert!(
        quote.contains("<li>where <code>Both</code> is ") && !quote.contains("Other"),
        "{quote}"
    );
    let _ = std::fs::remove_dir_all(folder);
}

#[test]
fn nothing_is_quoted_of_a_refused_image() {
    let text = page(&[&example("peterson-claim-wrong-1")]);
    let quote = section(&text, "quote");
    assert!(quote.contains("The image is refused: nothing may be quoted"), "{quote}");
    assert!(!quote.contains("never") && !quote.contains("RC11"), "{quote}");
}

/// The digest of the names changes with a label, that of the image does not.
#[test]
fn digests_are_of_image_source_and_names() {
    let folder = folder("digests");
    let told = |name: &str, text: &str| {
        let (file, image) = (folder.join(name), folder.join("i.image"));
        std::fs::write(&file, text).expect("written");
        let image = image.to_str().expect("a name");
        let page = page(&[file.to_str().expect("a name"), "--image", image]);
        let bytes = std::fs::read(image).expect("the image is beside the page");
        let id = |id: &str| {
            let (_, behind) = page.split_once(&format!("id=\"{id}\">")).expect("an id");
            behind[..64].to_string()
        };
        let found = [id("digest"), id("source-digest"), id("names-digest")];
        assert_eq!(found[..2], [digest(&bytes), digest(text.as_bytes())]);
        found
    };
    let text = std::fs::read_to_string(example("peterson-claim")).expect("readable");
    let one = told("one.outline", &text);
    let other = told("other.outline", &text.replace("inside", "within"));
    assert_eq!((one[0] == other[0], one[1] == other[1], one[2] == other[2]), (true, false, false));
    let names = "thread 1 a\nlabel 1 1 end\nword 1 x\n";
    let small = told("small.outline", "word x = 0\nthread a { true } x := 1 end: { true }");
    assert_eq!(small[2], digest(names.as_bytes()));
    let _ = std::fs::remove_dir_all(folder);
}

/// An image that is judged without a source has no labels, and its page says so.
#[test]
fn an_image_s_points_have_numbers() {
    let folder = folder("no-labels");
    let image = folder.join("p.image");
    let image = image.to_str().expect("a name");
    assert_eq!(run(&["build", &example("peterson-claim"), "-o", image]).0, 0);
    let text = page(&[image]);
    let never = "<li>t1 at point 5 and t2 at point 5 are never together.</li>";
    assert!(section(&text, "quote").contains(never), "{text}");
    assert!(text.contains("none: an image has no names") && !text.contains("names-digest"));
    let _ = std::fs::remove_dir_all(folder);
}

#[test]
fn dates_are_as_asked_or_as_the_epoch_says() {
    let date = |text: &str| {
        let (_, behind) = text.split_once("id=\"date\">").expect("a date");
        behind[..10].to_string()
    };
    let text = page(&[&example("rrc2")]);
    assert_eq!(date(&text), DAY[1]);
    assert_eq!(text, page(&[&example("rrc2")]), "the same page again");
    let mut command = std::process::Command::new(env!("CARGO_BIN_EXE_outline"));
    command.args(["report", &example("rrc2"), "-o", "-"]).env("SOURCE_DATE_EPOCH", "951782400");
    let said = String::from_utf8(command.output().expect("run").stdout).expect("text");
    assert_eq!(date(&said), "2000-02-29");
    let mut wrong = std::process::Command::new(env!("CARGO_BIN_EXE_outline"));
    wrong.args(["report", &example("rrc2"), "-o", "-"]).env("SOURCE_DATE_EPOCH", "yesterday");
    assert_eq!(wrong.output().expect("run").status.code(), Some(2));
    assert_eq!(run(&["report", &example("rrc2"), "-o", "-", "--date", "2023-02-29"]).0, 2);
}

#[test]
fn versions_are_told() {
    let text = page(&[&example("rrc2")]);
    let (_, versions) = text.split_once("<span class=\"versions\">").expect("versions");
    let tool = format!("outline {}; ", env!("CARGO_PKG_VERSION"));
    assert!(versions.starts_with(&tool), "{versions}");
    let kit =
        if cfg!(feature = "proved") { "; kit " } else { "; no kit: the independent checker; " };
    assert!(versions.contains(kit) && versions.contains("; rules 1 to 16, 20 to 27, 30 to 50 "));
}

/// What a click opens stands behind the summary, so that paper can show it without one.
#[test]
fn trees_stand_beside_what_opens_them() {
    let text = page(&[&example("message-passing")]);
    let (openers, opened) = (
        text.matches("</details><div class=\"opened\">").count(),
        text.matches("<details").count(),
    );
    assert_eq!((openers, opened), (18, 18));
    let style = tags(&text).iter().filter(|tag| tag.name == "style").count();
    assert_eq!(style, 1);
    let (_, print) = text.split_once("@media print").expect("a style for paper");
    assert!(print.contains(".opener:not([open]) + .opened { display: block; }"));
}

#[test]
fn an_image_has_a_file_of_its_own() {
    let folder = folder("image-beside");
    let (html, file) = (folder.join("p.html"), example("rrc2"));
    let html = html.to_str().expect("a name");
    for image in [html, &file] {
        assert_eq!(run(&["report", &file, "-o", html, "--image", image]).0, 2);
    }
    assert!(!std::path::Path::new(html).exists());
    let _ = std::fs::remove_dir_all(folder);
}
