//! `lsp`: a language server on standard input and output.
//!
//! `wire` reads and writes messages, `json` reads JSON, `server` does what messages ask for. A `document` is a text that is
//! open; `index` has its names, `places` its points, `position` the columns of the protocol. `diagnostics`, `hover`, `names`
//! and `actions` answer.

mod actions;
mod diagnostics;
mod document;
mod hover;
mod index;
mod json;
mod names;
mod places;
mod position;
mod server;
mod wire;

use crate::command::json::quoted;
use crate::command::options::Options;
use crate::command::{complain, Done, Status};
use crate::diagnosis::BOUNDS;
use crate::watch::judgement::Effort;
use json::Json;
use server::Server;
use std::cell::RefCell;
use std::collections::VecDeque;
use std::sync::mpsc::{channel, Receiver};
use wire::{receive, send, Incoming};

/// The tries for each obligation, so that an edit is answered quickly; the examples take up to 16,000.
const TRIES: u64 = 20_000;

pub fn run(args: &[&str]) -> Done {
    let options = Options::read(args, &["--tries"])?;
    if !options.files.is_empty() {
        return Err("the server takes no file: the editor sends texts".into());
    }
    let tries = options.tries.unwrap_or(TRIES);
    let mut server = Server::new(Effort { tries, bounds: BOUNDS });
    let queue = Queue::of_input();
    loop {
        // Texts are judged when nothing else is asked for; a message that comes stops the search.
        let next = match queue.take() {
            Some(next) => Some(next),
            None if server.judge_next(&|_, _| queue.is_empty()) => None,
            None => Some(queue.wait()),
        };
        match &next {
            None => {}
            Some(Incoming::Message(text)) => server.take(text, &|id| queue.has_cancelled(id)),
            Some(Incoming::Garbage(told)) => server.garbage(told),
            Some(Incoming::End) => return ended(&server),
        }
        let mut output = std::io::stdout().lock();
        server.out.drain(..).try_for_each(|message| send(&mut output, &message))?;
        if let Some(in_order) = server.exit {
            return Ok(if in_order { Status::Accepted } else { Status::Refused });
        }
    }
}

/// Standard input has ended without `exit`, perhaps inside of a message.
fn ended(server: &Server) -> Done {
    if server.is_shut_down() {
        return Ok(Status::Accepted);
    }
    complain("standard input has ended before `shutdown`\n");
    Ok(Status::Refused)
}

/// The id of the request that a message cancels, as JSON.
fn cancelled(text: &str) -> Option<String> {
    let message = text.contains("$/cancelRequest").then(|| Json::read(text)).flatten()?;
    message.get("method").and_then(Json::text).filter(|method| *method == "$/cancelRequest")?;
    match message.at(&["params", "id"]) {
        Some(Json::Number(number)) => Some(number.clone()),
        Some(Json::Text(text)) => Some(quoted(text)),
        _ => None,
    }
}

/// Messages in the order in which they came; a thread of its own reads them.
struct Queue {
    input: Receiver<Incoming>,
    read: RefCell<VecDeque<Incoming>>,
}

impl Queue {
    fn of_input() -> Queue {
        let (sender, input) = channel();
        std::thread::spawn(move || {
            let mut standard = std::io::stdin().lock();
            loop {
                let next = receive(&mut standard);
                let ends = next == Incoming::End;
                if sender.send(next).is_err() || ends {
                    return;
                }
            }
        });
        Queue { input, read: RefCell::new(VecDeque::new()) }
    }

    fn is_empty(&self) -> bool {
        self.read.borrow_mut().extend(self.input.try_iter());
        self.read.borrow().is_empty()
    }

    /// Has the client cancelled the request with this id, or gone? The message stays where it is, and says nothing later.
    fn has_cancelled(&self, id: &str) -> bool {
        let cancels = |next: &Incoming| match next {
            Incoming::Message(text) => cancelled(text).as_deref() == Some(id),
            Incoming::Garbage(_) => false,
            Incoming::End => true,
        };
        !self.is_empty() && self.read.borrow().iter().any(cancels)
    }

    fn take(&self) -> Option<Incoming> {
        match self.is_empty() {
            true => None,
            false => self.read.borrow_mut().pop_front(),
        }
    }

    fn wait(&self) -> Incoming {
        self.input.recv().unwrap_or(Incoming::End)
    }
}
