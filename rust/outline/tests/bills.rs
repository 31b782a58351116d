//! `bill`: what it prints, and its status.

mod program;

use program::{example, fed, run, told, Folder};

const TARIFF: &str = "# cents for an obligation
start 10
step 25
taken 30
interference 40   # class 4

least 500
";

/// Who bills: the program says it, and without the feature it is the independent one.
fn biller() -> String {
    let (_, out, _) = told(fed(&["bill", &example("polling"), "--tariff", "-"], TARIFF.as_bytes()));
    let name = out.trim_end().rsplit_once("   (").expect("who billed").1.trim_end_matches(')');
    assert!(["independent billing", "proved billing"].contains(&name), "{out}");
    assert!(cfg!(feature = "proved") || name == "independent billing");
    name.into()
}

#[test]
fn a_bill_by_thread() {
    let folder = Folder::new("bill");
    let tariff = folder.with("tariff", TARIFF);
    // Polling: the writer has two stores and three points, the reader two loads, a branch and four points.
    // Writer: 10 + 2 of 25 + 8 of 40; reader: 10 + 3 of 25 + 30 + 6 of 40.
    let polling = example("polling");
    let (status, out, err) = run(&["bill", &polling, "--tariff", &tariff]);
    let want = format!(
        "{polling}: 735 cents\n  writer: 380\n  reader: 355\nbilled images: 1   ({})\n",
        biller()
    );
    assert_eq!((status, out, err.as_str()), (0, want, ""));
}

#[test]
fn the_least_charge() {
    let folder = Folder::new("least");
    let tariff = folder.with("tariff", &TARIFF.replace("500", "65535"));
    let polling = example("polling");
    let (status, out, _) = run(&["bill", &polling, "--tariff", &tariff, "--billed", "41"]);
    let want = format!(
        "{polling}: 65535 cents, the least charge; the obligations come to 735\n  writer: 380\n  reader: 355\n\
         billed images: 42   ({})\n",
        biller()
    );
    assert_eq!((status, out), (0, want));
}

#[test]
fn several_files_and_one_that_is_refused() {
    let folder = Folder::new("bills");
    let tariff = folder.with("tariff", TARIFF);
    let image = folder.file("p.image");
    assert_eq!(run(&["build", &example("polling"), "-o", &image]).0, 0);
    let wrong = example("message-passing-wrong-1");
    let (status, out, _) = run(&["bill", &image, &wrong, &image, "--tariff", &tariff]);
    let one = format!("{image}: 735 cents\n  t1: 380\n  t2: 355\n");
    let want = format!(
        "{one}{wrong}: NOT BILLED (code 30): REFUSED: class 4, thread 2 (reader) point 0 (line 23) under thread 1 \
         (writer) point 1 (line 17): it names no line (code 20)\n{one}3 files: 1470 cents; billed images: 2   ({})\n",
        biller()
    );
    assert_eq!((status, out), (1, want));
}

#[test]
fn the_end_of_the_number() {
    let folder = Folder::new("end");
    let tariff = folder.with("tariff", TARIFF);
    let polling = example("polling");
    let at = |number: &str| run(&["bill", &polling, "--tariff", &tariff, "--billed", number]);
    let (status, out, _) = at("4294967294");
    assert!(status == 0 && out.contains("\nbilled images: 4294967295   ("), "{out}");
    let (status, out, _) = at("4294967295");
    let want = format!(
        "{polling}: NOT BILLED (code 31): 4294967295 images are billed, and no more are counted\n\
         billed images: 4294967295   ({})\n",
        biller()
    );
    assert_eq!((status, out), (1, want));
    let (status, _, err) = at("4294967296");
    let want = "`--billed` wants a number up to 4294967295, found `4294967296`\n";
    assert_eq!((status, err.as_str()), (2, want));
}

#[test]
fn as_json() {
    let folder = Folder::new("bill-json");
    let tariff = folder.with("tariff", TARIFF);
    let polling = example("polling");
    let (status, out, _) = run(&["bill", &polling, "--tariff", &tariff, "--json"]);
    let want = format!(
        "{{\"version\":1,\"command\":\"bill\",\"status\":0,\
         \"file\":\"{polling}\",\"code\":0,\"cents\":735,\"billed\":1,\"threads\":[{{\"thread\":\"writer\",\
         \"cents\":380}},{{\"thread\":\"reader\",\"cents\":355}}],\"words\":\"735 cents\",\"biller\":\"{}\"}}\n",
        biller()
    );
    assert_eq!((status, out), (0, want));
    let (status, out, _) = told(fed(&["bill", "-", "--tariff", &tariff, "--json"], &[0]));
    let start = "{\"version\":1,\"command\":\"bill\",\"status\":1,\
        \"file\":\"standard input\",\"code\":30,\"cents\":0,\"billed\":0,\"threads\":[],\"words\":\"NOT BILLED (code 30): ";
    assert!(status == 1 && out.starts_with(start), "{out}");
}

#[test]
fn mistakes_of_a_tariff_are_named_by_line() {
    let folder = Folder::new("tariff");
    let tariff = folder.with("tariff", "start 10\nstep 25\ntaken 70000\nleast 5\nleast 6\n");
    let (status, out, err) = run(&["bill", &example("polling"), "--tariff", &tariff]);
    let want = format!(
        "{tariff}:3:7: `70000` is no price: cents are 0 to 65535\n  | taken 70000\n  |       ^\n\
         {tariff}:5:1: `least` is priced twice\n  | least 6\n  | ^\n\
         {tariff}:5: `interference` has no price\n"
    );
    assert_eq!((status, out.as_str(), err), (2, "", want));
    let (status, _, err) = run(&["bill", &example("polling"), "--tariff", "/dev/null"]);
    assert!(status == 2 && err.starts_with("/dev/null:1: `start` has no price\n"), "{err}");
}

#[test]
fn wrong_use() {
    let folder = Folder::new("bill-use");
    let tariff = folder.with("tariff", TARIFF);
    let said = |args: &[&str]| {
        let (status, out, err) = run(args);
        assert_eq!((status, out.as_str()), (2, ""), "{err}");
        err
    };
    assert_eq!(said(&["bill", "x"]), "`--tariff FILE` is wanted; see outline --help\n");
    assert_eq!(said(&["bill", "--tariff", &tariff]), "no file to bill; see outline --help\n");
    let twice = "standard input is one file: the tariff or an image\n";
    assert_eq!(said(&["bill", "-", "--tariff", "-"]), twice);
    let (status, out, _) = run(&["bill", "none.image", "--tariff", &tariff]);
    assert!(status == 2 && out.starts_with("none.image: NOT BILLED: none.image: "), "{out}");
}
