//! The server's state, and what each message does with it.

use super::document::Document;
use super::json::Json;
use super::position::{Position, Range};
use super::{actions, diagnostics, hover, names};
use crate::build::Watch;
use crate::command::json::{object, quoted};
use crate::watch::judgement::Effort;
use std::panic::{catch_unwind, AssertUnwindSafe};

/// Codes of errors, as JSON-RPC and the protocol have them.
const NO_JSON: i32 = -32700;
const NO_REQUEST: i32 = -32600;
const NO_METHOD: i32 = -32601;
const NO_PARAMETERS: i32 = -32602;
const INTERNAL: i32 = -32603;
const NOT_INITIALIZED: i32 = -32002;
const REQUEST_FAILED: i32 = -32803;
const CANCELLED: i32 = -32800;

/// A code and its words.
type Fault = (i32, String);

#[derive(Debug, Clone, Copy, PartialEq, Eq)]
enum Stage {
    Begun,
    Initialized,
    ShutDown,
}

pub struct Server {
    stage: Stage,
    documents: Vec<Document>,
    effort: Effort,
    /// Messages to be sent.
    pub out: Vec<String>,
    /// Whether the client has said `exit`, and whether it had asked to shut down before.
    pub exit: Option<bool>,
}

impl Server {
    pub fn new(effort: Effort) -> Server {
        Server { stage: Stage::Begun, documents: Vec::new(), effort, out: Vec::new(), exit: None }
    }

    pub fn is_shut_down(&self) -> bool {
        self.stage == Stage::ShutDown
    }

    /// What is no message is answered as such: nobody knows which request it was.
    pub fn garbage(&mut self, told: &str) {
        self.fail("null", (NO_JSON, told.into()));
    }

    fn fail(&mut self, id: &str, (code, text): Fault) {
        let error = object(&[("code", code.to_string()), ("message", quoted(&text))]);
        self.out.push(object(&[("jsonrpc", quoted("2.0")), ("id", id.into()), ("error", error)]));
    }

    fn answer(&mut self, id: &str, result: String) {
        self.out.push(object(&[("jsonrpc", quoted("2.0")), ("id", id.into()), ("result", result)]));
    }

    fn notify(&mut self, method: &str, params: String) {
        let method = quoted(method);
        self.out.push(object(&[
            ("jsonrpc", quoted("2.0")),
            ("method", method),
            ("params", params),
        ]));
    }

    /// Does what a message asks for. A mistake of this program ends no more than the one request. A request that takes
    /// long asks whether the client still wants an answer to the request with this id.
    pub fn take(&mut self, text: &str, is_cancelled: &dyn Fn(&str) -> bool) {
        let Some(message) = Json::read(text) else {
            return self.garbage("a message that is no JSON");
        };
        let id = match message.get("id") {
            Some(Json::Number(number)) => Some(number.clone()),
            Some(Json::Text(text)) => Some(quoted(text)),
            _ => None,
        };
        let Some(method) = message.get("method").and_then(Json::text) else {
            // An answer to the server, which asks for nothing, is passed over.
            let answers = message.get("result").is_some() || message.get("error").is_some();
            if !answers {
                self.fail(&id.unwrap_or("null".into()), (NO_REQUEST, "a method is wanted".into()));
            }
            return;
        };
        let none = Json::Null;
        let params = message.get("params").unwrap_or(&none);
        match id {
            None => self.notification(method, params),
            Some(id) => {
                let goes_on = || !is_cancelled(&id);
                let done =
                    catch_unwind(AssertUnwindSafe(|| self.request(method, params, &goes_on)));
                let told = "mistake in this tool: it could not answer this request";
                match done.unwrap_or(Err((INTERNAL, told.into()))) {
                    Ok(result) => self.answer(&id, result),
                    Err(fault) => self.fail(&id, fault),
                }
            }
        }
    }

    fn request(
        &mut self,
        method: &str,
        params: &Json,
        goes_on: &dyn Fn() -> bool,
    ) -> Result<String, Fault> {
        match (self.stage, method) {
            (Stage::Begun, "initialize") => {
                self.stage = Stage::Initialized;
                return Ok(capabilities());
            }
            (Stage::Begun, _) => {
                return Err((NOT_INITIALIZED, "`initialize` comes first".into()));
            }
            (Stage::Initialized, "shutdown") => {
                self.stage = Stage::ShutDown;
                return Ok("null".into());
            }
            (Stage::ShutDown, _) | (_, "initialize") => {
                return Err((NO_REQUEST, format!("`{method}` cannot come now")));
            }
            _ => {}
        }
        if !method.starts_with("textDocument/") {
            return Err((NO_METHOD, format!("`{method}` is not known")));
        }
        self.of_document(method, params, goes_on)
    }

    /// The requests about a text that is open.
    fn of_document(
        &mut self,
        method: &str,
        params: &Json,
        goes_on: &dyn Fn() -> bool,
    ) -> Result<String, Fault> {
        let wanted = |what: &str| (NO_PARAMETERS, format!("{what} is wanted"));
        let position = || {
            let position = params.get("position").and_then(Position::read);
            position.ok_or(wanted("a position"))
        };
        let uri = params.at(&["textDocument", "uri"]).and_then(Json::text);
        let uri = uri.ok_or(wanted("a text's uri"));
        let known = self.documents.iter_mut();
        let document = |uri: &str| known.into_iter().find(|document| document.uri == uri);
        let open = |uri: &str| document(uri).ok_or((NO_PARAMETERS, format!("{uri} is not open")));
        match method {
            "textDocument/hover" => {
                let document = current(open(uri?)?, self.effort);
                Ok(hover::hover(document, position()?))
            }
            "textDocument/definition" => Ok(names::definition(open(uri?)?, position()?)),
            "textDocument/references" => {
                let declared = params.at(&["context", "includeDeclaration"]);
                let with = declared != Some(&Json::Bool(false));
                Ok(names::references(open(uri?)?, position()?, with))
            }
            "textDocument/prepareRename" => Ok(names::prepare(open(uri?)?, position()?)),
            "textDocument/rename" => {
                let name = params.get("newName").and_then(Json::text).ok_or(wanted("a name"))?;
                let renamed = names::rename(open(uri?)?, position()?, name);
                renamed.map_err(|told| (REQUEST_FAILED, told))
            }
            "textDocument/documentSymbol" => Ok(names::symbols(current(open(uri?)?, self.effort))),
            "textDocument/completion" => Ok(names::completion(open(uri?)?, position()?)),
            "textDocument/formatting" => Ok(actions::formatting(open(uri?)?)),
            "textDocument/codeAction" => {
                let range = params.get("range").and_then(Range::read).ok_or(wanted("a range"))?;
                let document = current(open(uri?)?, self.effort);
                let found = actions::actions(document, range, goes_on);
                found.ok_or((CANCELLED, "the client has cancelled this request".into()))
            }
            _ => Err((NO_METHOD, format!("`{method}` is not known"))),
        }
    }

    /// Notifications have no answer: what is not known or does not fit is passed over.
    fn notification(&mut self, method: &str, params: &Json) {
        if method == "exit" {
            self.exit = Some(self.is_shut_down());
            return;
        }
        if self.stage != Stage::Initialized {
            return;
        }
        let uri = params.at(&["textDocument", "uri"]).and_then(Json::text);
        let Some(uri) = uri.map(String::from) else { return };
        let version = match params.at(&["textDocument", "version"]) {
            Some(Json::Number(number)) => Some(number.clone()),
            _ => None,
        };
        match method {
            "textDocument/didOpen" => {
                let text = params.at(&["textDocument", "text"]).and_then(Json::text);
                let Some(text) = text else { return };
                self.documents.retain(|document| document.uri != uri);
                let mut document = Document::of(uri);
                document.set(version, text.into());
                self.documents.push(document);
            }
            "textDocument/didChange" => {
                let document = self.documents.iter_mut().find(|document| document.uri == uri);
                let changes = params.get("contentChanges").map(Json::list).unwrap_or_default();
                if let Some(document) = document {
                    changes.iter().for_each(|change| apply(document, &version, change));
                }
            }
            "textDocument/didClose" => {
                self.documents.retain(|document| document.uri != uri);
                self.publish(&uri, None, "[]".into());
            }
            _ => {}
        }
    }

    fn publish(&mut self, uri: &str, version: Option<String>, diagnostics: String) {
        let mut params = vec![("uri", quoted(uri))];
        params.extend(version.map(|version| ("version", version)));
        params.push(("diagnostics", diagnostics));
        self.notify("textDocument/publishDiagnostics", object(&params));
    }

    /// Judges one text that has changed; says whether there was one. A search that was stopped goes on the next time.
    pub fn judge_next(&mut self, watch: Watch) -> bool {
        let effort = self.effort;
        let Some(document) = self.documents.iter_mut().find(|document| document.is_new) else {
            return false;
        };
        let judged = catch_unwind(AssertUnwindSafe(|| document.judge(effort, watch)));
        if judged.is_err() {
            document.is_new = false;
            document.judgement = None;
        }
        if !document.is_new {
            let (uri, version) = (document.uri.clone(), document.version.clone());
            let told = diagnostics::diagnostics(document);
            self.publish(&uri, version, told);
        }
        true
    }
}

/// A document that was judged: a request that rests on it does not wait for the next quiet moment.
fn current(document: &mut Document, effort: Effort) -> &mut Document {
    if document.judgement.is_none() {
        document.judge(effort, &|_, _| true);
        // The diagnostics are still to be sent.
        document.is_new = true;
    }
    document
}

/// A change: the whole text, or what comes in the place of a range.
fn apply(document: &mut Document, version: &Option<String>, change: &Json) {
    let Some(new) = change.get("text").and_then(Json::text) else { return };
    let text = match change.get("range").and_then(Range::read) {
        None => new.to_string(),
        Some(range) => {
            let (from, to) = (document.offset(range.start), document.offset(range.end));
            let mut text = document.text.clone();
            text.replace_range(from.min(to)..to.max(from), new);
            text
        }
    };
    document.set(version.clone(), text);
}

/// What the server can do.
fn capabilities() -> String {
    let yes = || "true".to_string();
    let sync = object(&[("openClose", yes()), ("change", "1".into()), ("save", yes())]);
    let rename = object(&[("prepareProvider", yes())]);
    let actions = object(&[("codeActionKinds", "[\"quickfix\"]".into())]);
    let all = object(&[
        ("positionEncoding", quoted("utf-16")),
        ("textDocumentSync", sync),
        ("hoverProvider", yes()),
        ("definitionProvider", yes()),
        ("referencesProvider", yes()),
        ("renameProvider", rename),
        ("documentSymbolProvider", yes()),
        ("completionProvider", "{}".into()),
        ("documentFormattingProvider", yes()),
        ("codeActionProvider", actions),
    ]);
    let info =
        object(&[("name", quoted("outline")), ("version", quoted(env!("CARGO_PKG_VERSION")))]);
    object(&[("capabilities", all), ("serverInfo", info)])
}
