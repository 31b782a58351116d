//! What stands on a page.

use crate::reader::{count, tags};
use crate::{example, folder, names, run};
use outline::report::sha256::digest;
use std::collections::BTreeSet;

fn page(name: &str) -> (i32, String) {
    let (status, out, _) = run(&["report", &example(name), "-o", "-"]);
    (status, out)
}

#[test]
fn an_accepted_outline_is_told_with_all_its_obligations() {
    let (status, text) = page("message-passing");
    let all = tags(&text);
    assert_eq!(status, 0);
    assert_eq!((count(&all, "accepted"), count(&all, "refused")), (1, 0));
    assert_eq!((count(&all, "thread"), count(&all, "met"), count(&all, "open")), (2, 18, 0));
    assert_eq!(count(&all, "tree"), 18);
    assert!(all.iter().all(|tag| tag.name != "svg"));
    let record = "14 00 07 00 00 00 00 00 00 00 00 00 00 00 00 00 00 00 00 00 12 00";
    assert!(text.contains(&format!(">{record}</code>")));
    assert!(text.contains("18 of 18 obligations are met."));
}

/// The digest is that of the bytes which `build` writes.
#[test]
fn the_digest_is_the_image_s() {
    let folder = folder("digest");
    let image = folder.join("m.image");
    let image = image.to_str().expect("a name");
    run(&["build", &example("message-passing"), "-o", image]);
    let bytes = std::fs::read(image).expect("written");
    let wanted = format!("id=\"digest\">{}</code>", digest(&bytes));
    assert!(page("message-passing").1.contains(&wanted));
    let (status, of_image, _) = run(&["report", image, "-o", "-"]);
    assert_eq!(status, 0);
    assert!(of_image.contains(&wanted) && of_image.contains("<h1>m.image</h1>"));
    assert!(of_image.contains(">r1 != 1 or r2 = 1</code>"));
    assert!(!of_image.contains(image), "no folder of the machine is told");
    let _ = std::fs::remove_dir_all(folder);
}

#[test]
fn assertions_are_in_the_outline_s_own_words() {
    let (_, text) = page("message-passing");
    assert!(text.contains(">a = 1 =&gt; reader sees [data = 1]</code>"));
    let link = "<a class=\"let\" href=\"#let-0\" title=\"reader sees one flag = 0 ; [unsync flag] ; [data = 1]\">Coming</a>";
    assert!(text.contains(link), "{text}");
    assert!(text.contains("<dt id=\"let-0\"><code>Coming</code></dt>"));
}

/// Below each obligation stand its line, and all lines below that, each once.
#[test]
fn trees_go_down_to_the_last_premise() {
    let (_, shown, _) = run(&["show", &example("polling")]);
    let mut premises: Vec<Vec<usize>> = vec![Vec::new()];
    for line in shown.lines().filter_map(|line| line.strip_prefix("  line ")) {
        let from = line.split_once(" from ").map_or("", |(_, from)| from);
        premises.push(from.split(' ').filter_map(|n| n.parse().ok()).collect());
    }
    let obligations = shown.lines().find_map(|line| line.strip_prefix("  obligations "));
    let (_, text) = page("polling");
    let trees: Vec<&str> = text.split("<ol class=\"tree\">").skip(1).collect();
    let roots: Vec<usize> =
        obligations.expect("listed").split(' ').map(|n| n.parse().expect("a line")).collect();
    assert_eq!((trees.len(), roots.len()), (22, 22));
    let by_class = |tree: &&str| tree[..tree.find("</ol>").expect("a tree ends")].to_string();
    let told: Vec<BTreeSet<usize>> = trees.iter().map(|tree| lines(&by_class(tree))).collect();
    for root in roots {
        let (mut below, mut stack) = (BTreeSet::new(), vec![root]);
        while let Some(line) = stack.pop() {
            if below.insert(line) {
                stack.extend(&premises[line]);
            }
        }
        assert!(told.contains(&below), "line {root}");
    }
}

/// The lines that a tree tells.
fn lines(tree: &str) -> BTreeSet<usize> {
    let behind = tree.split(">line ").skip(1);
    behind.map(|text| text.split(',').next().unwrap_or("").parse().expect("a line")).collect()
}

/// A page for each example: well formed, alone, its links inside, and with a drawing exactly if a run breaks it.
#[test]
fn every_example_has_its_page() {
    for name in names() {
        let (status, text) = page(&name);
        let all = tags(&text);
        let wrong = name.contains("-wrong-");
        assert_eq!(count(&all, "run") == 1, wrong, "{name}");
        assert_eq!(status == 0, count(&all, "accepted") == 1, "{name}");
        let is_false = |answer: &str| text.contains(&format!("</strong> {answer}"));
        assert_eq!(
            is_false("The program is wrong: ") || is_false("The outline is false: "),
            wrong,
            "{name}"
        );
        // Nothing on a refused page is called met.
        assert_eq!(status == 0, count(&all, "met") > 0, "{name}");
        assert!(status == 1 || count(&all, "there") == 0, "{name}");
        let ids: BTreeSet<&str> = all.iter().filter_map(|tag| tag.get("id")).collect();
        assert_eq!(ids.len(), all.iter().filter(|tag| tag.get("id").is_some()).count(), "{name}");
        for tag in &all {
            assert!(!["script", "link", "img", "iframe", "object"].contains(&tag.name.as_str()));
            assert!(
                tag.get("src").is_none()
                    && !tag.attributes.iter().any(|(n, _)| n.starts_with("on"))
            );
            if let Some(href) = tag.get("href") {
                let target = href.strip_prefix('#').expect("links stay on the page");
                assert!(ids.contains(target), "{name}: {href}");
            }
        }
        let outward = text.replace("http://www.w3.org/2000/svg", "").contains("http://");
        assert!(!outward && !text.contains("https://") && !text.contains("@import"), "{name}");
    }
}

#[test]
fn what_no_run_breaks_is_not_called_false() {
    let (status, text) = page("ticket-wait");
    assert_eq!(status, 1);
    assert!(!text.contains("<svg"));
    let answer = "It is not proved: no run breaks an assertion or a claim (all 16 states).";
    assert!(text.contains(answer), "{text}");
    assert!(
        text.contains("It is not shown that the assertion of waiter at point 0 survives first’s “")
    );
}

/// The claim has its line, but other lines are missing, and a run brings both threads inside.
#[test]
fn nothing_on_a_refused_page_is_a_result() {
    let file = concat!(env!("CARGO_MANIFEST_DIR"), "/tests/outlines/both-inside.outline");
    let (status, text, _) = run(&["report", file, "-o", "-"]);
    let all = tags(&text);
    assert_eq!((status, count(&all, "met"), count(&all, "open")), (1, 0, 3));
    assert!(!text.contains(">met<") && !text.contains(" are met"), "{text}");
    let claim = " never meet.</span> <span class=\"answer there\">its line is there; nothing follows while others are open</span>";
    assert!(text.contains(claim), "{text}");
    assert!(
        text.contains("none of these is a result.")
            && text.contains("none of these assertions is a result.")
    );
    assert!(text.contains("25 of 28 have their lines in a certificate of "), "{text}");
    assert_eq!(count(&all, "there"), 26, "25 obligations and the claim");
}

/// The run that is drawn is the claim's, though obligations without a line are broken in fewer steps.
#[test]
fn the_run_that_matters_most_is_drawn() {
    let file = concat!(env!("CARGO_MANIFEST_DIR"), "/tests/outlines/both-inside.outline");
    let (_, text, _) = run(&["report", file, "-o", "-"]);
    let answer = "The program is wrong: a run of 5 steps breaks a claim: never north at inside and south at inside.";
    let first = text.find("<strong class=\"word\">Refused</strong>").expect("a verdict");
    assert!(text[first..].contains(&format!("Refused</strong> {answer}")), "{text}");
    let title = "<title>A run of 5 steps after which these meet: north at inside and south at inside</title>";
    assert!(text.contains(title), "{text}");
    assert_eq!(text.matches("<svg").count(), 1);
    let falsehoods = text.matches(">False:</strong> a run of ").count();
    assert_eq!(
        (falsehoods, text.contains(">False:</strong> a run of 2 steps breaks it.")),
        (3, true)
    );
}

#[test]
fn bytes_that_are_no_image_have_a_page_too() {
    let folder = folder("bytes");
    let image = folder.join("cut.image");
    std::fs::write(&image, [7, 0, 1]).expect("written");
    let (status, text, _) = run(&["report", image.to_str().expect("a name"), "-o", "-"]);
    assert_eq!(status, 1);
    tags(&text);
    assert!(text.contains("The bytes are no image: record 1: its length is cut short"));
    assert!(!text.contains("id=\"obligations\"") && text.contains("id=\"trust\""));
    let _ = std::fs::remove_dir_all(folder);
}

#[test]
fn use_of_report() {
    let folder = folder("use-report");
    let target = folder.join("p.html");
    let target = target.to_str().expect("a name");
    let (status, out, err) = run(&["report", &example("rrc2"), "-o", target]);
    assert_eq!((status, err.as_str()), (0, ""));
    assert!(out.starts_with(&format!("{target}: ACCEPTED: 18 obligations met")));
    let (status, out, _) = run(&["report", &example("rrc2-wrong-1"), "-o", target, "--json"]);
    assert_eq!(status, 1);
    assert!(out.contains("\"accepted\":false") && out.contains("\"digest\":\""), "{out}");
    assert_eq!(run(&["report", &example("rrc2")]).0, 2);
    assert_eq!(run(&["report", "nowhere.outline", "-o", target]).0, 2);
    assert_eq!(run(&["report", &example("rrc2"), "-o", "/nowhere/p.html"]).0, 2);
    let _ = std::fs::remove_dir_all(folder);
}
