//! `lsp`: a client that speaks the protocol to the program.

#[path = "json/parse.rs"]
mod parse;
mod program;

use parse::{parse, Json};
use program::example;
use std::collections::VecDeque;
use std::io::{BufRead, BufReader, Read, Write};
use std::process::{Child, ChildStdin, Command, Stdio};
use std::sync::mpsc::{channel, Receiver};
use std::time::Duration;

/// The other side of the program.
struct Client {
    child: Child,
    input: Option<ChildStdin>,
    output: Receiver<Json>,
    /// What came and was not asked for yet.
    early: VecDeque<Json>,
    next: i64,
}

/// The next message of the program; none at its end.
fn message(output: &mut impl BufRead) -> Option<Json> {
    let mut header = String::new();
    output.read_line(&mut header).ok().filter(|length| *length > 0)?;
    let length = header.strip_prefix("Content-Length: ").expect("a length").trim_end();
    let mut bytes = vec![0; 2 + length.parse::<usize>().expect("a number")];
    output.read_exact(&mut bytes).expect("a whole message");
    let text = String::from_utf8(bytes).expect("UTF-8");
    Some(parse(text.strip_prefix("\r\n").expect("an empty line")))
}

fn quoted(text: &str) -> String {
    outline::command::json::quoted(text)
}

impl Client {
    fn new() -> Client {
        let mut child = Command::new(env!("CARGO_BIN_EXE_outline"))
            .arg("lsp")
            .stdin(Stdio::piped())
            .stdout(Stdio::piped())
            .stderr(Stdio::piped())
            .spawn()
            .expect("run");
        let (send, output) = channel();
        let mut out = BufReader::new(child.stdout.take().expect("a pipe"));
        std::thread::spawn(move || {
            while let Some(message) = message(&mut out) {
                let _ = send.send(message);
            }
        });
        let input = child.stdin.take();
        Client { child, input, output, early: VecDeque::new(), next: 1 }
    }

    /// A client whose server is ready.
    fn ready() -> Client {
        let mut client = Client::new();
        let answer = client
            .request("initialize", "{\"processId\":null,\"rootUri\":null,\"capabilities\":{}}");
        assert!(answer.get("result").is_some(), "{answer:?}");
        client.notify("initialized", "{}");
        client
    }

    fn raw(&mut self, bytes: &[u8]) {
        let input = self.input.as_mut().expect("open");
        input.write_all(bytes).and_then(|()| input.flush()).expect("the server reads");
    }

    fn send(&mut self, message: &str) {
        self.raw(format!("Content-Length: {}\r\n\r\n{message}", message.len()).as_bytes());
    }

    fn notify(&mut self, method: &str, params: &str) {
        self.send(&format!("{{\"jsonrpc\":\"2.0\",\"method\":\"{method}\",\"params\":{params}}}"));
    }

    fn received(&mut self, is_it: impl Fn(&Json) -> bool) -> Json {
        if let Some(at) = self.early.iter().position(&is_it) {
            return self.early.remove(at).expect("it is there");
        }
        loop {
            let next = self.output.recv_timeout(Duration::from_secs(120)).expect("a message");
            if is_it(&next) {
                return next;
            }
            self.early.push_back(next);
        }
    }

    /// The whole answer to a request.
    fn request(&mut self, method: &str, params: &str) -> Json {
        let id = self.next;
        self.next += 1;
        self.send(&format!(
            "{{\"jsonrpc\":\"2.0\",\"id\":{id},\"method\":\"{method}\",\"params\":{params}}}"
        ));
        self.received(|message| message.get("id").and_then(Json::number) == Some(id))
    }

    fn result(&mut self, method: &str, params: &str) -> Json {
        let answer = self.request(method, params);
        answer.get("result").unwrap_or_else(|| panic!("{method}: {answer:?}")).clone()
    }

    fn code(&mut self, method: &str, params: &str) -> i64 {
        let answer = self.request(method, params);
        let error = answer.get("error").unwrap_or_else(|| panic!("{method}: {answer:?}"));
        error.get("code").and_then(Json::number).expect("a code")
    }

    fn open(&mut self, text: &str) -> Vec<Json> {
        let item = format!(
            "{{\"uri\":\"{URI}\",\"languageId\":\"outline\",\"version\":1,\"text\":{}}}",
            quoted(text)
        );
        self.notify("textDocument/didOpen", &format!("{{\"textDocument\":{item}}}"));
        self.diagnostics(1)
    }

    fn change(&mut self, version: i64, text: &str) -> Vec<Json> {
        self.notify(
            "textDocument/didChange",
            &format!(
                "{{\"textDocument\":{{\"uri\":\"{URI}\",\"version\":{version}}},\"contentChanges\":[{{\"text\":{}}}]}}",
                quoted(text)
            ),
        );
        self.diagnostics(version)
    }

    fn diagnostics(&mut self, version: i64) -> Vec<Json> {
        let told = self.received(|message| {
            let is_told = text(message, "method") == "textDocument/publishDiagnostics";
            is_told
                && message.get("params").and_then(|p| p.get("version")?.number()) == Some(version)
        });
        let params = told.get("params").expect("parameters");
        assert_eq!(text(params, "uri"), URI);
        params.get("diagnostics").expect("a list").list().to_vec()
    }

    /// A request about the place of a text in the document; `{}` is for more members.
    fn at(&mut self, method: &str, document: &str, place: &str, more: &str) -> Json {
        let params = at(document, place, more);
        self.result(&format!("textDocument/{method}"), &params)
    }

    /// Ends the server as the protocol says; its status.
    fn end(mut self) -> i32 {
        self.request("shutdown", "null");
        self.notify("exit", "null");
        self.child.wait().expect("it ends").code().expect("a status")
    }
}

const URI: &str = "file:///m.outline";

fn text<'a>(value: &'a Json, name: &str) -> &'a str {
    value.get(name).and_then(Json::text).unwrap_or_default()
}

/// The position of the middle of a text that stands once: `before|behind`, units of UTF-16.
fn position(document: &str, place: &str) -> (usize, usize) {
    let (before, behind) = place.split_once('|').expect("a place");
    let found: Vec<usize> =
        document.match_indices(&format!("{before}{behind}")).map(|m| m.0).collect();
    assert_eq!(found.len(), 1, "{place}");
    let front = &document[..found[0] + before.len()];
    let line = front.matches('\n').count();
    (line, front.rsplit('\n').next().expect("a line").encode_utf16().count())
}

fn at(document: &str, place: &str, more: &str) -> String {
    let (line, character) = position(document, place);
    format!(
        "{{\"textDocument\":{{\"uri\":\"{URI}\"}},\"position\":{{\"line\":{line},\"character\":{character}}}{more}}}"
    )
}

/// A range as line and character of its start and its end.
fn range(value: &Json) -> [i64; 4] {
    let range = value.get("range").unwrap_or(value);
    let part = |a: &str, b: &str| range.get(a).and_then(|p| p.get(b)?.number()).expect("a number");
    [
        part("start", "line"),
        part("start", "character"),
        part("end", "line"),
        part("end", "character"),
    ]
}

/// What a range of a document holds.
fn within<'a>(document: &'a str, value: &Json) -> &'a str {
    let [line, from, last, to] = range(value);
    let offset = |line: i64, units: i64| {
        let before: usize = document.split_inclusive('\n').take(line as usize).map(str::len).sum();
        let mut left = units;
        let rest = document[before..].char_indices();
        let rest = rest.take_while(|(_, c)| {
            left -= c.len_utf16() as i64;
            left >= 0
        });
        before + rest.map(|(_, c)| c.len_utf8()).sum::<usize>()
    };
    &document[offset(line, from)..offset(last, to)]
}

/// A document with edits applied.
fn edited(document: &str, edits: &[Json]) -> String {
    let mut text = document.to_string();
    let mut edits: Vec<&Json> = edits.iter().collect();
    edits.sort_by_key(|edit| range(edit));
    for edit in edits.iter().rev() {
        let old = within(document, edit);
        let at = old.as_ptr() as usize - document.as_ptr() as usize;
        text.replace_range(at..at + old.len(), self::text(edit, "newText"));
    }
    text
}

fn changes(value: &Json) -> Vec<Json> {
    value.get("changes").and_then(|c| c.get(URI)).expect("changes").list().to_vec()
}

fn read(name: &str) -> String {
    std::fs::read_to_string(example(name)).expect("the example")
}

#[test]
fn a_session_goes_in_its_order() {
    let mut client = Client::new();
    assert_eq!(client.code("textDocument/hover", "{}"), -32002);
    // What comes before `initialize` and has no answer is dropped.
    client.notify("textDocument/didOpen", "{\"textDocument\":{\"uri\":\"a\",\"text\":\"word\"}}");
    let ready = client.result("initialize", "{\"capabilities\":{}}");
    let can = ready.get("capabilities").expect("capabilities");
    assert_eq!(can.get("textDocumentSync").and_then(|sync| sync.get("change")?.number()), Some(1));
    for name in [
        "hoverProvider",
        "definitionProvider",
        "referencesProvider",
        "documentSymbolProvider",
        "documentFormattingProvider",
    ] {
        assert_eq!(can.get(name), Some(&Json::Bool(true)), "{name}");
    }
    client.notify("initialized", "{}");
    assert_eq!(client.code("initialize", "{}"), -32600);
    assert_eq!(client.code("workspace/nothing", "{}"), -32601);
    assert_eq!(client.code("textDocument/nothing", "{}"), -32601);
    client.notify("$/nothing", "{}");
    client.notify("textDocument/didChange", "[]");
    client.notify("textDocument/didOpen", "{\"textDocument\":{\"uri\":7}}");
    assert_eq!(client.request("shutdown", "null").get("result"), Some(&Json::Null));
    assert_eq!(client.code("textDocument/hover", "{}"), -32600);
    client.notify("exit", "null");
    assert_eq!(client.child.wait().expect("it ends").code(), Some(0));
    let mut client = Client::ready();
    client.notify("exit", "null");
    assert_eq!(client.child.wait().expect("it ends").code(), Some(1));
}

#[test]
fn garbage_is_answered_and_nothing_is_lost() {
    let mut client = Client::ready();
    let document = read("message-passing");
    assert!(client.open(&document).is_empty());
    let no_id = |message: &Json| message.get("id") == Some(&Json::Null);
    let code = |message: Json| message.get("error").and_then(|e| e.get("code")?.number());
    for body in ["", "{\"jsonrpc\":\"2.0\",", "nonsense", "\"\\u12\"", &"[".repeat(50_000)] {
        client.send(body);
        assert_eq!(code(client.received(no_id)), Some(-32700), "{body:.20}");
    }
    for body in ["[]", "7", "{}", "{\"method\":7}"] {
        client.send(body);
        assert_eq!(code(client.received(no_id)), Some(-32600), "{body}");
    }
    client.raw(b"GET / HTTP/1.1\r\n\r\n");
    assert_eq!(code(client.received(no_id)), Some(-32700));
    client.raw(b"Content-Length: many\r\n\r\n");
    assert_eq!(code(client.received(no_id)), Some(-32700));
    client.raw(b"Content-Length: 2\r\n\r\n\xff\xfe");
    assert_eq!(code(client.received(no_id)), Some(-32700));
    // An answer to nothing is passed over, and the text is still there.
    client.send("{\"jsonrpc\":\"2.0\",\"id\":99,\"result\":null}");
    let hover = client.at("hover", &document, "let Com|ing", "");
    assert!(text(hover.get("contents").expect("contents"), "value").contains("let Coming"));
    // Half a message, and the end.
    client.raw(b"Content-Length: 100\r\n\r\n{\"jsonrpc\"");
    client.input = None;
    assert_eq!(client.child.wait().expect("it ends").code(), Some(1));
    let mut said = String::new();
    client.child.stderr.take().expect("a pipe").read_to_string(&mut said).expect("read");
    assert_eq!(said, "standard input has ended before `shutdown`\n");
}

/// Positions that are none, and parameters that are none: an error or nothing, and the server goes on.
#[test]
fn positions_out_of_range_are_answered() {
    let mut client = Client::ready();
    let document = read("message-passing");
    client.open(&document);
    let place = |line: &str, character: &str| {
        format!("{{\"textDocument\":{{\"uri\":\"{URI}\"}},\"position\":{{\"line\":{line},\"character\":{character}}},\"newName\":\"zz\"}}")
    };
    for method in ["hover", "definition", "references", "prepareRename", "completion", "rename"] {
        let method = format!("textDocument/{method}");
        for (line, character) in
            [("999999", "0"), ("0", "99999"), ("4294967296", "4294967296"), ("30", "0")]
        {
            let answer = client.request(&method, &place(line, character));
            let failed = answer.get("error").and_then(|e| e.get("code")?.number());
            assert!(
                answer.get("result").is_some() || failed == Some(-32803),
                "{method}: {answer:?}"
            );
        }
        for (line, character) in [("-1", "0"), ("1.5", "0"), ("\"1\"", "0"), ("0", "null")] {
            assert_eq!(client.code(&method, &place(line, character)), -32602, "{method}");
        }
        assert_eq!(client.code(&method, "{}"), -32602);
        assert_eq!(client.code(&method, "null"), -32602);
        let other = place("0", "0").replace(URI, "file:///other");
        assert_eq!(client.code(&method, &other), -32602);
    }
    assert_eq!(client.code("textDocument/codeAction", &place("0", "0")), -32602);
    assert!(client.change(2, "").len() == 1);
    for method in ["hover", "definition", "completion", "documentSymbol", "formatting"] {
        client.result(&format!("textDocument/{method}"), &place("0", "0"));
    }
    assert_eq!(client.end(), 0);
}

#[test]
fn what_is_wrong_is_told_at_its_lines() {
    let mut client = Client::ready();
    let good = read("message-passing");
    let wrong = good.replace("flag :=rel 1", "flag := 1");
    let told = client.open(&wrong);
    // First whether the program is wrong, with the run: four steps, and what the registers hold.
    assert_eq!(text(&told[0], "code"), "program-wrong");
    assert!(text(&told[0], "message")
        .starts_with("PROGRAM WRONG: a run of 4 steps breaks reader's last assertion"));
    assert_eq!(within(&wrong, &told[0]), "{ a = 1 => b = 1 }");
    let related = told[0].get("relatedInformation").expect("the run").list();
    let steps: Vec<(&str, &str)> = related
        .iter()
        .map(|one| (within(&wrong, one.get("location").expect("a place")), text(one, "message")))
        .collect();
    assert_eq!(steps.len(), 5);
    assert_eq!(steps[1], ("flag := 1", "2. writer: flag := 1   writes 1 behind write 1"));
    assert_eq!(steps[3].0, "b <- data");
    assert_eq!(steps[4].1, "then a = 1, b = 0");
    // Then the obligation, which is false.
    assert_eq!((text(&told[1], "code"), within(&wrong, &told[1])), ("false", "{ Coming }"));
    assert!(text(&told[1], "message").contains("not kept by thread 1 (writer) point 1"));
    assert_eq!(told[1].get("severity").and_then(Json::number), Some(1));
    // Mended.
    assert_eq!(client.change(2, &good), []);
    // Not provable: nothing false is seen, but the assertion says too little.
    let less = good.replace(
        "{ writer sees [data = 1] and writer sees one flag and",
        "{ writer sees one flag and",
    );
    let told = client.change(3, &less);
    assert_eq!(text(&told[0], "code"), "not-proved");
    assert!(told[1..].iter().all(|one| text(one, "code") == "not-provable"), "{told:?}");
    assert_eq!(told[1].get("severity").and_then(Json::number), Some(2));
    // Mistakes of the text, with columns in units of UTF-16.
    let told = client.change(4, "word x = 0\nword 😀y = 0\nthread a { true } x := z { true }\n");
    let at: Vec<[i64; 4]> = told.iter().map(range).collect();
    assert_eq!(at[0][..2], [1, 5]);
    assert_eq!(at.last(), Some(&[2, 23, 2, 24]));
    assert!(told.iter().all(|one| text(one, "code") == "mistake"));
    let odd = "word x = 0 😀 word yy = 0\nthread a { a sees one yy }\n";
    client.change(5, odd);
    let found = client.at("definition", odd, "one y|y", "");
    assert_eq!(range(&found), [0, 19, 0, 21]);
    assert_eq!(client.end(), 0);
}

/// What is not found within the bound is said so.
#[test]
fn a_bound_is_told() {
    let mut client = Client::ready();
    let told = client.open(&read("ticket-wait"));
    let codes: Vec<&str> = told.iter().map(|one| text(one, "code")).collect();
    assert!(
        codes[0] == "not-proved"
            && codes[1..].iter().all(|c| ["not-provable", "not-found"].contains(c)),
        "{codes:?}"
    );
    assert_eq!(client.end(), 0);
}

#[test]
fn accepted_examples_have_no_diagnostics_and_wrong_ones_have() {
    let folder = std::path::Path::new(env!("CARGO_MANIFEST_DIR")).join("../../examples");
    let mut client = Client::ready();
    let (mut version, mut accepted, mut refused) = (1, 0, 0);
    client.open("");
    for entry in std::fs::read_dir(folder).expect("the examples") {
        let path = entry.expect("a file").path();
        if path.extension().is_none_or(|end| end != "outline") {
            continue;
        }
        let document = std::fs::read_to_string(&path).expect("a text");
        version += 1;
        let told = client.change(version, &document);
        let is_refused = document.contains("# refused: ");
        assert_eq!(!told.is_empty(), is_refused, "{}: {told:?}", path.display());
        *(if is_refused { &mut refused } else { &mut accepted }) += 1;
    }
    assert!(accepted > 20 && refused > 40, "{accepted} {refused}");
    assert_eq!(client.end(), 0);
}

#[test]
fn hover_tells_names_obligations_and_rules() {
    let mut client = Client::ready();
    let document = read("message-passing") + "proof\n  fact { reader sees [data = 0] and reader sees [data = 1] } to { false } by 20\n";
    assert_eq!(client.open(&document), []);
    let mut hover = |place: &str| {
        let told = client.at("hover", &document, place, "");
        text(told.get("contents").unwrap_or(&Json::Null), "value").to_string()
    };
    assert_eq!(
        hover("  { Com|ing }"),
        "```outline\nlet Coming = reader sees one flag = 0 ; [unsync flag] ; [data = 1]\n```"
    );
    assert!(hover("word da|ta = 0").contains("word data = 0"));
    assert!(hover("registers |a, b").contains("register a of reader"));
    assert!(hover("thread wr|iter").contains("ACCEPTED: "));
    let kept = hover("  |{ Coming }");
    assert!(kept.contains("class 1, thread 2 (reader) point 0"), "{kept}");
    assert!(kept.contains("class 4, ") && kept.contains("rule 8: "), "{kept}");
    let step = hover("a <-a|cq flag");
    assert!(step.contains("class 2, ") && step.contains("line "), "{step}");
    assert!(hover("by 2|0").starts_with("#### 20. "));
    assert_eq!(hover("# Message |passing (source"), "");
    let claims = read("peterson-claim");
    assert_eq!(client.change(2, &claims), []);
    let told = client.at("hover", &claims, "nev|er ann", "");
    assert!(text(told.get("contents").expect("contents"), "value")
        .contains("claim, never thread 1 (ann)"));
    assert_eq!(client.end(), 0);
}

#[test]
fn names_are_found_and_renamed() {
    let mut client = Client::ready();
    let document = read("peterson-claim");
    assert_eq!(client.open(&document), []);
    for (place, declared, uses) in [
        ("word tu|rn = 0", "turn", 3),
        ("let La|st =", "Last", 3),
        ("thread bo|b", "bob", 3),
        ("registers a|2,", "a2", 5),
        ("never ann in|side and", "inside", 2),
    ] {
        let found = client.at("definition", &document, place, "");
        assert_eq!(within(&document, &found), declared);
        let all =
            client.at("references", &document, place, ",\"context\":{\"includeDeclaration\":true}");
        let without = client.at(
            "references",
            &document,
            place,
            ",\"context\":{\"includeDeclaration\":false}",
        );
        assert!(all.list().len() >= uses, "{place}: {}", all.list().len());
        assert_eq!(without.list().len() + 1, all.list().len());
        assert!(all.list().iter().all(|one| within(&document, one) == declared));
        let name = client.at("prepareRename", &document, place, "");
        assert_eq!(text(&name, "placeholder"), declared);
        let renamed = client.at("rename", &document, place, ",\"newName\":\"other'\"");
        let edits = changes(&renamed);
        assert_eq!(edits.len(), all.list().len());
        // The renamed text is accepted as well.
        let new = edited(&document, &edits);
        assert_ne!(new, document);
        assert_eq!(client.change(2, &new), [], "{place}");
        assert_eq!(client.change(3, &document), []);
    }
    // A label of one thread is no label of another.
    let found = client.at(
        "references",
        &document,
        "never ann in|side and",
        ",\"context\":{\"includeDeclaration\":true}",
    );
    let lines: Vec<i64> = found.list().iter().map(|one| range(one)[0]).collect();
    assert_eq!(lines.len(), document.matches("never ann inside").count() + 1);
    for name in ["thread", "flag1", "", "a b", "7a", "é"] {
        let params = at(&document, "word tu|rn = 0", &format!(",\"newName\":\"{name}\""));
        assert_eq!(client.code("textDocument/rename", &params), -32803, "{name}");
    }
    let params = at(&document, "wo|rd turn = 0", ",\"newName\":\"x\"");
    assert_eq!(client.code("textDocument/rename", &params), -32803);
    assert_eq!(client.end(), 0);
}

#[test]
fn symbols_completion_and_layout() {
    let mut client = Client::ready();
    let document = read("peterson-claim");
    client.open(&document);
    let params = format!("{{\"textDocument\":{{\"uri\":\"{URI}\"}},\"options\":{{}}}}");
    let symbols = client.result("textDocument/documentSymbol", &params);
    let names: Vec<&str> = symbols.list().iter().map(|symbol| text(symbol, "name")).collect();
    assert!(names.starts_with(&["flag1", "flag2", "turn"]), "{names:?}");
    assert!(
        names.iter().any(|name| name.starts_with("never ann inside and bob inside")),
        "{names:?}"
    );
    let ann = symbols.list().iter().find(|symbol| text(symbol, "name") == "ann").expect("a thread");
    let inner: Vec<&str> =
        ann.get("children").expect("children").list().iter().map(|s| text(s, "name")).collect();
    assert!(
        inner.contains(&"a1") && inner.contains(&"inside") && !inner.contains(&"a2"),
        "{inner:?}"
    );
    let labels = |all: &Json| {
        all.list().iter().map(|item| text(item, "label").to_string()).collect::<Vec<String>>()
    };
    let all = labels(&client.at("completion", &document, "word tu|rn = 0", ""));
    for name in ["turn", "ann", "a1", "Last", "unsync", "fetch-add"] {
        assert!(all.iter().any(|label| label == name), "{name}: {all:?}");
    }
    let goto =
        labels(&client.at("completion", &document, "if fl1 = 1 and tu1 != 1 goto lo|ok", ""));
    assert!(goto.contains(&"look".to_string()) && !goto.contains(&"turn".to_string()), "{goto:?}");
    // The usual layout, as `fmt` has it.
    assert_eq!(client.result("textDocument/formatting", &params).list(), []);
    let ugly = document.replace("  { ", "{").replace(" := ", ":=").replace("# ", "#  é😀 ");
    client.change(2, &ugly);
    let edits = client.result("textDocument/formatting", &params);
    let new = edited(&ugly, edits.list());
    assert_eq!(new, outline::fmt::formatted(&ugly).expect("formatted"));
    assert_ne!(new, ugly);
    client.change(3, "thread {");
    assert_eq!(client.result("textDocument/formatting", &params).list(), []);
    assert_eq!(client.end(), 0);
}

/// `{ ? }`: told as a hole, filled by a code action, and accepted then.
#[test]
fn holes_are_filled() {
    let mut client = Client::ready();
    let folder =
        concat!(env!("CARGO_MANIFEST_DIR"), "/../../examples/infer/message-passing.program");
    let document = std::fs::read_to_string(folder).expect("the program");
    assert!(document.contains("{ ? }"), "{document}");
    let told = client.open(&document);
    assert!(!told.is_empty() && told.iter().all(|one| text(one, "code") == "hole"), "{told:?}");
    let (line, character) = {
        let front = &document[..document.find("{ ? }").expect("a hole") + 2];
        (front.matches('\n').count(), front.rsplit('\n').next().expect("a line").len())
    };
    let place = format!("{{\"line\":{line},\"character\":{character}}}");
    let params = format!(
        "{{\"textDocument\":{{\"uri\":\"{URI}\"}},\"range\":{{\"start\":{place},\"end\":{place}}},\"context\":{{\"diagnostics\":[]}}}}"
    );
    let actions = client.result("textDocument/codeAction", &params);
    let all = actions
        .list()
        .iter()
        .find(|action| text(action, "title").contains("all holes"))
        .expect("an action");
    let new = edited(&document, &changes(all.get("edit").expect("an edit")));
    assert_eq!(client.change(2, &new), [], "{new}");
    let one = actions.list().iter().find(|action| text(action, "title").contains("this hole"));
    if let Some(one) = one {
        let new = edited(&document, &changes(one.get("edit").expect("an edit")));
        let told = client.change(3, &new);
        assert_eq!(
            told.len() + 1,
            document.matches("{ ? }").count() + bare_points(&document),
            "{new}"
        );
    }
    // Elsewhere nothing is offered; a wish that is broken is told with its run.
    client.change(4, &document);
    let away = params.replace(&place, "{\"line\":0,\"character\":0}");
    assert_eq!(client.result("textDocument/codeAction", &away).list(), []);
    let broken = document.replace("flag :=rel 1", "flag := 1");
    let told = client.change(5, &broken);
    assert_eq!(text(&told[0], "code"), "program-wrong");
    assert!(!told[0].get("relatedInformation").expect("a run").list().is_empty());
    let actions = client.result("textDocument/codeAction", &params);
    assert!(actions.list()[0].get("disabled").is_some(), "{actions:?}");
    assert_eq!(client.end(), 0);
}

/// Four threads whose outline is not found soon: an inference that goes on until it is stopped.
const LONG: &str = "word x = 0
thread first
  { ? }
    x := 1
  { ? }
thread second
  { ? }
    x := 2
  { ? }
thread left
  registers a, b
  { ? }
    a <- x
  { ? }
    b <- x
  { holds (a != 1 or b != 2 or c != 2 or d != 1) }
thread right
  registers c, d
  { ? }
    c <- x
  { ? }
    d <- x
  { ? }
";

/// `$/cancelRequest` ends the inference: the request is answered with the code of the protocol, and what comes behind it is
/// answered as ever.
#[test]
fn an_inference_is_cancelled() {
    let mut client = Client::ready();
    client.open(LONG);
    let place = "{\"line\":2,\"character\":4}";
    let params = format!(
        "{{\"textDocument\":{{\"uri\":\"{URI}\"}},\"range\":{{\"start\":{place},\"end\":{place}}},\"context\":{{\"diagnostics\":[]}}}}"
    );
    let asks = |id: &str| {
        format!(
            "{{\"jsonrpc\":\"2.0\",\"id\":{id},\"method\":\"textDocument/codeAction\",\"params\":{params}}}"
        )
    };
    let begun = std::time::Instant::now();
    for id in ["700", "\"seven\""] {
        client.send(&asks(id));
        // Of another request: nothing is cancelled by it.
        client.notify("$/cancelRequest", "{\"id\":9999}");
        std::thread::sleep(Duration::from_millis(100));
        client.notify("$/cancelRequest", &format!("{{\"id\":{id}}}"));
        let wanted = parse(id);
        let answer = client.received(|message| message.get("id") == Some(&wanted));
        let code = answer.get("error").and_then(|error| error.get("code")?.number());
        assert_eq!(code, Some(-32800), "{answer:?}");
    }
    let soon = begun.elapsed();
    client.result("textDocument/formatting", &params);
    // Cancelled too late, or without an id: passed over.
    client.notify("$/cancelRequest", "{\"id\":700}");
    client.notify("$/cancelRequest", "{}");
    client.notify("$/cancelRequest", "null");
    client.result("textDocument/documentSymbol", &params);
    assert!(soon < Duration::from_secs(20), "{soon:?}");
    assert_eq!(client.end(), 0);
}

/// The points of threads without any assertion, which are holes too.
fn bare_points(document: &str) -> usize {
    let source = outline::text::parse_source::parse(document).expect("a text");
    let holes = source.points.iter().flatten().filter(|point| point.hole).count();
    holes - document.matches("{ ? }").count()
}

/// Many edits in a row: the last one is judged, and requests in between are answered.
#[test]
fn edits_in_a_row_are_answered() {
    let mut client = Client::ready();
    let document = read("ticket-lock");
    let item = format!(
        "{{\"uri\":\"{URI}\",\"languageId\":\"outline\",\"version\":1,\"text\":{}}}",
        quoted(&document)
    );
    client.notify("textDocument/didOpen", &format!("{{\"textDocument\":{item}}}"));
    for version in 2..40 {
        let text = format!("{document}# edit {version}\n");
        client.notify(
            "textDocument/didChange",
            &format!(
                "{{\"textDocument\":{{\"uri\":\"{URI}\",\"version\":{version}}},\"contentChanges\":[{{\"text\":{}}}]}}",
                quoted(&text)
            ),
        );
        assert!(client.at("completion", &text, "wo|rd display", "").list().len() > 30);
    }
    assert_eq!(client.diagnostics(39), []);
    assert_eq!(client.end(), 0);
}
